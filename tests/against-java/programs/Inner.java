/** Inner classes: those of an object, of a method with what they captured, and without a name. */
public class Inner {
    private int count;

    class Step {
        final int by;

        Step(int by) {
            this.by = by;
        }

        int done() {
            count += by;
            return count;
        }
    }

    interface Task {
        int run(int n);
    }

    Task adding(final int more) {
        class Adding implements Task {
            public int run(int n) {
                return n + more + count;
            }
        }
        return new Adding();
    }

    static Task times(final int factor) {
        return new Task() {
            private int calls;

            public int run(int n) {
                calls++;
                return n * factor + calls;
            }
        };
    }

    Step step(int by) {
        return new Step(by);
    }

    public static void main(String[] words) {
        Inner outer = new Inner();
        Step two = outer.step(2);
        Step five = outer.step(5);
        System.out.println(two.done() + " " + five.done() + " " + two.done());
        Task adding = outer.adding(100);
        System.out.println(adding.run(1));
        five.done();
        System.out.println(adding.run(1));
        Task times = times(3);
        for (int i = 0; i < 4; i++) {
            System.out.println(times.run(i));
        }
    }
}
