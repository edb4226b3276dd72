/** A queue of one place between two threads, by turns under a monitor, without wait and notify. */
public class Monitors {
    static class Place {
        private String item;
        private boolean closed;

        synchronized boolean put(String next) {
            if (item != null) {
                return false;
            }
            item = next;
            return true;
        }

        synchronized String take() {
            String taken = item;
            item = null;
            return taken;
        }

        synchronized void close() {
            closed = true;
        }

        synchronized boolean isDone() {
            return closed && item == null;
        }
    }

    static class Sender extends Thread {
        private final Place place;

        Sender(Place place) {
            this.place = place;
        }

        public void run() {
            for (int i = 0; i < 8; i++) {
                String item = "item " + i * i;
                while (!place.put(item)) {
                    waited++;
                }
            }
            place.close();
        }

        int waited;
    }

    public static void main(String[] words) throws InterruptedException {
        Place place = new Place();
        Sender sender = new Sender(place);
        sender.start();
        int count = 0;
        while (!place.isDone()) {
            String item = place.take();
            if (item != null) {
                count++;
                System.out.println(count + " " + item);
            }
        }
        sender.join();
        System.out.println("done");
    }
}
