/** Threads that are started and joined one after another, each with a part of the work and an answer in its field. */
public class Joined {
    static class Summing extends Thread {
        private final int from;
        private final int to;
        long sum;

        Summing(int from, int to) {
            this.from = from;
            this.to = to;
        }

        public void run() {
            for (int i = from; i < to; i++) {
                sum += i * i;
            }
        }
    }

    public static void main(String[] words) throws InterruptedException {
        Summing[] parts = new Summing[5];
        for (int i = 0; i < parts.length; i++) {
            parts[i] = new Summing(i * 40, (i + 1) * 40);
            parts[i].start();
        }
        long sum = 0;
        for (Summing part : parts) {
            part.join();
            System.out.println(part.sum);
            sum += part.sum;
        }
        System.out.println(sum);
        try {
            parts[0].start();
            System.out.println("started again");
        } catch (IllegalThreadStateException fault) {
            System.out.println("started before");
        }
        Thread running = new Thread(new Runnable() {
            public void run() {
                System.out.println("in a thread of its own");
            }
        });
        running.start();
        running.join();
        System.out.println("joined");
    }
}
