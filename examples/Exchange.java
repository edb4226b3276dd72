/**
 * A producer and two consumers on threads of their own, with a buffer of four places between them. A full or an empty buffer
 * is looked at again and again, since a thread has nothing to wait by but a monitor.
 */
public class Exchange {
    static final class Parcel {
        final int number;
        final byte[] content;

        Parcel(int number) {
            this.number = number;
            this.content = new byte[16 + number % 5 * 16];
        }
    }

    static final class Buffer {
        private final Parcel[] places = new Parcel[4];
        private int first;
        private int size;
        private boolean closed;

        synchronized boolean put(Parcel parcel) {
            if (size == places.length) {
                return false;
            }
            places[(first + size) % places.length] = parcel;
            size++;
            return true;
        }

        synchronized Parcel take() {
            if (size == 0) {
                return null;
            }
            Parcel parcel = places[first];
            places[first] = null;
            first = (first + 1) % places.length;
            size--;
            return parcel;
        }

        synchronized void close() {
            closed = true;
        }

        synchronized boolean isDone() {
            return closed && size == 0;
        }
    }

    static final class Producer implements Runnable {
        private final Buffer buffer;

        Producer(Buffer buffer) {
            this.buffer = buffer;
        }

        @Override
        public void run() {
            for (int i = 0; i < 60; i++) {
                Parcel parcel = new Parcel(i);
                while (!buffer.put(parcel)) {
                }
            }
            buffer.close();
        }
    }

    static final class Consumer extends Thread {
        private final Buffer buffer;
        private Parcel greatest;
        private int parcels;
        private int bytes;

        Consumer(Buffer buffer) {
            this.buffer = buffer;
        }

        @Override
        public void run() {
            while (!buffer.isDone()) {
                Parcel parcel = buffer.take();
                if (parcel != null) {
                    parcels++;
                    bytes += parcel.content.length;
                    if (greatest == null || parcel.content.length > greatest.content.length) {
                        greatest = parcel;
                    }
                }
            }
        }
    }

    public static void main(String[] arguments) throws InterruptedException {
        Buffer buffer = new Buffer();
        Thread producer = new Thread(new Producer(buffer));
        Consumer one = new Consumer(buffer);
        Consumer two = new Consumer(buffer);
        producer.start();
        one.start();
        two.start();
        producer.join();
        one.join();
        two.join();
        System.out.println(one.parcels + two.parcels + " parcels with " + (one.bytes + two.bytes) + " bytes");
    }
}
