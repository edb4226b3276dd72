/** When classes are initialized, and in which order: superclasses first, constants never, and a failing one once. */
public class Initializers {
    static class Above {
        static int made = told("Above", 1);

        static int told(String who, int n) {
            System.out.println(who + " begins");
            return n;
        }

        int field = told("a field of Above", 10);

        Above() {
            System.out.println("constructed above with " + late());
        }

        int late() {
            return -1;
        }
    }

    static class Below extends Above {
        static final int CONSTANT = 77;
        static int made = told("Below", Above.made + 1);
        int number = 5;

        int late() {
            return number;
        }
    }

    static class Failing {
        static int number = 1 / zero();

        static int zero() {
            System.out.println("about to fail");
            return 0;
        }
    }

    static class First {
        static int a = Second.b + 1;
    }

    static class Second {
        static int b = First.a + 10;
    }

    interface Quiet {
        int NUMBER = 3;
    }

    static {
        System.out.println("the main class begins");
    }

    public static void main(String[] words) {
        System.out.println(Below.CONSTANT);
        Below[] none = new Below[2];
        System.out.println(none.length + Quiet.NUMBER);
        System.out.println(Below.made);
        System.out.println(new Below().late());
        for (int i = 0; i < 2; i++) {
            try {
                System.out.println(Failing.number);
            } catch (ExceptionInInitializerError fault) {
                System.out.println("failed: " + (fault.getCause() instanceof ArithmeticException));
            } catch (NoClassDefFoundError fault) {
                System.out.println("failed before");
            }
        }
        System.out.println(First.a + " " + Second.b);
    }
}
