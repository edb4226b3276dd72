/** Static initializers, an interface with a default method, and an array of objects. */
public class Counter {
    interface Step {
        int by();

        default int twice() {
            return 2 * by();
        }
    }

    static class One implements Step {
        static final Step SHARED = new One();

        public int by() {
            return 1;
        }
    }

    static class Ten extends One {
        public int by() {
            return 10;
        }
    }

    static long total = 5L;
    static final Step[] STEPS = {One.SHARED, new Ten(), new Ten()};

    public static void main(String[] arguments) {
        for (Step step : STEPS) {
            total += step.twice();
        }
        STEPS[1] = null;
        STEPS[2] = One.SHARED;
    }
}
