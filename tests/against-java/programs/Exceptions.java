/** Exceptions: those of the machine and of the program, handlers by their order, finally, rethrowing and causes. */
public class Exceptions {
    static class Fault extends Exception {
        final int number;

        Fault(int number, String message) {
            super(message);
            this.number = number;
        }
    }

    static class Worse extends Fault {
        Worse() {
            super(99, "worse");
        }
    }

    static void fail(int how) throws Fault {
        int[] none = null;
        switch (how) {
            case 0: throw new Fault(how, "zero");
            case 1: throw new Worse();
            case 2: none[0] = 1; break;
            case 3: none = new int[1 / (how - 3)]; break;
            case 4: Object text = "text"; none = (int[]) text; break;
            case 5: throw new IllegalStateException("state");
            case 6: throw new Error();
            default: System.out.println("nothing is wrong with " + how);
        }
    }

    static int tried(int how) {
        try {
            fail(how);
            return how;
        } catch (Worse fault) {
            System.out.println("worse " + fault.number + " " + fault.getMessage());
            return -1;
        } catch (Fault fault) {
            System.out.println("fault " + fault.number + " " + fault.getMessage());
            return -2;
        } catch (RuntimeException fault) {
            System.out.println("runtime");
            return -3;
        } catch (Throwable fault) {
            System.out.println("any");
            return -4;
        } finally {
            System.out.println("tried " + how);
        }
    }

    static int overridden() {
        try {
            throw new NullPointerException();
        } finally {
            return 5;
        }
    }

    static void nested(int depth) {
        try {
            if (depth == 0) {
                throw new IllegalArgumentException("deepest");
            }
            nested(depth - 1);
        } catch (IllegalArgumentException fault) {
            if (depth < 3) {
                throw fault;
            }
            System.out.println("caught at " + depth + ": " + fault.getMessage());
        } finally {
            System.out.println("left " + depth);
        }
    }

    public static void main(String[] words) {
        for (int how = 0; how < 9; how++) {
            System.out.println(tried(how));
        }
        System.out.println(overridden());
        nested(5);
        try {
            throw new IllegalStateException("outer", new Fault(7, "inner"));
        } catch (IllegalStateException fault) {
            System.out.println(fault.getMessage() + " by " + fault.getCause().getMessage());
        }
        System.out.println("before the end");
        throw new IllegalStateException("nobody catches this");
    }
}
