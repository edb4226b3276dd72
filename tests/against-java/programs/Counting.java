/** Threads that share counters under monitors: synchronized methods, blocks, static ones, and monitors taken twice. */
public class Counting {
    private int count;
    private static int all;

    synchronized void count() {
        countAgain();
    }

    private synchronized void countAgain() {
        int before = count;
        count = before + 1;
    }

    static synchronized void countAll() {
        int before = all;
        all = before + 1;
    }

    int[] cells = new int[4];

    void spread(int n) {
        synchronized (cells) {
            int at = n % cells.length;
            int before = cells[at];
            cells[at] = before + n;
        }
    }

    static class Worker implements Runnable {
        private final Counting shared;
        private final int times;

        Worker(Counting shared, int times) {
            this.shared = shared;
            this.times = times;
        }

        public void run() {
            for (int i = 0; i < times; i++) {
                shared.count();
                countAll();
                shared.spread(i);
                if (i % 7 == 3) {
                    try {
                        failing();
                    } catch (IllegalStateException fault) {
                        shared.count();
                    }
                }
            }
        }

        private void failing() {
            synchronized (shared) {
                shared.count++;
                throw new IllegalStateException();
            }
        }
    }

    public static void main(String[] words) throws InterruptedException {
        Counting shared = new Counting();
        Thread[] threads = new Thread[4];
        for (int i = 0; i < threads.length; i++) {
            threads[i] = new Thread(new Worker(shared, 30 + i));
            threads[i].start();
        }
        for (Thread thread : threads) {
            thread.join();
        }
        System.out.println(shared.count + " " + all);
        for (int cell : shared.cells) {
            System.out.println(cell);
        }
    }
}
