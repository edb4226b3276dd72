package java.lang;

/** Mathematics on ints and longs. */
public final class Math {
    private Math() {}

    public static int abs(int a) {
        return a < 0 ? -a : a;
    }

    public static long abs(long a) {
        return a < 0 ? -a : a;
    }

    public static int max(int a, int b) {
        return a > b ? a : b;
    }

    public static long max(long a, long b) {
        return a > b ? a : b;
    }

    public static int min(int a, int b) {
        return a < b ? a : b;
    }

    public static long min(long a, long b) {
        return a < b ? a : b;
    }

    /** The int of the same value; an ArithmeticException where there is none. */
    public static int toIntExact(long a) {
        if (a != (int) a) {
            throw new ArithmeticException("integer overflow");
        }
        return (int) a;
    }

    public static int addExact(int a, int b) {
        return toIntExact((long) a + b);
    }

    public static int subtractExact(int a, int b) {
        return toIntExact((long) a - b);
    }

    public static int multiplyExact(int a, int b) {
        return toIntExact((long) a * b);
    }

    public static int negateExact(int a) {
        return toIntExact(-(long) a);
    }

    public static int incrementExact(int a) {
        return toIntExact(a + 1L);
    }

    public static int decrementExact(int a) {
        return toIntExact(a - 1L);
    }

    private static long exact(boolean isExact, long a) {
        if (!isExact) {
            throw new ArithmeticException("long overflow");
        }
        return a;
    }

    public static long addExact(long a, long b) {
        long sum = a + b;
        return exact(b < 0 ? sum < a : sum >= a, sum);
    }

    public static long subtractExact(long a, long b) {
        long difference = a - b;
        return exact(b < 0 ? difference > a : difference <= a, difference);
    }

    public static long multiplyExact(long a, long b) {
        long product = a * b;
        return exact(a == 0 || product / a == b && !(a == -1 && b == Long.MIN_VALUE), product);
    }

    public static long negateExact(long a) {
        return exact(a != Long.MIN_VALUE, -a);
    }

    public static long incrementExact(long a) {
        return exact(a != Long.MAX_VALUE, a + 1);
    }

    public static long decrementExact(long a) {
        return exact(a != Long.MIN_VALUE, a - 1);
    }

    /** The greatest number that isn't above the quotient. */
    public static int floorDiv(int a, int b) {
        int quotient = a / b;
        return (a < 0) != (b < 0) && quotient * b != a ? quotient - 1 : quotient;
    }

    public static long floorDiv(long a, long b) {
        long quotient = a / b;
        return (a < 0) != (b < 0) && quotient * b != a ? quotient - 1 : quotient;
    }

    public static int floorMod(int a, int b) {
        return a - floorDiv(a, b) * b;
    }

    public static long floorMod(long a, long b) {
        return a - floorDiv(a, b) * b;
    }
}
