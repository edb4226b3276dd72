/** Exceptions that are caught, one that unwinds a synchronized method, and one that ends the thread. */
public class Recover {
    private int left;

    Recover(int left) {
        this.left = left;
    }

    synchronized int divide(int by) {
        return left / by;
    }

    static int guarded(Recover recover, int by) {
        try {
            return recover.divide(by);
        } catch (ArithmeticException e) {
            return -1;
        } finally {
            recover.left++;
        }
    }

    public static void main(String[] arguments) {
        Recover recover = new Recover(6);
        int a = guarded(recover, 2);
        int b = guarded(recover, 0);
        if (a + b != 0) {
            Object[] none = new Object[0];
            none[a] = recover;
        }
    }
}
