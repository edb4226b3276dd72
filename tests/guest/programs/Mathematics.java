/** Math and StrictMath on ints and longs. */
public class Mathematics {
    static final long[] LONGS = {0, 1, -1, 2, -2, 3, 7, -7, 46340, 46341, -46341, 65536, 0x7ffffffeL, 0x7fffffffL, -0x80000000L, 0x80000000L,
        -0x80000001L, 3037000499L, 3037000500L, -3037000500L, 1L << 62, -(1L << 62), Long.MAX_VALUE - 1, Long.MAX_VALUE, Long.MIN_VALUE, Long.MIN_VALUE + 1};

    public static void main(String[] arguments) {
        for (int i = 0; i < LONGS.length; i++) {
            one(LONGS[i]);
            for (int j = 0; j < LONGS.length; j++) {
                for (int which = 0; which < 26; which++) {
                    try {
                        System.out.println(two(which, LONGS[i], LONGS[j]));
                    } catch (ArithmeticException e) {
                        System.out.println(-123456);
                    }
                }
            }
        }
    }

    static void one(long a) {
        System.out.println(Math.abs(a));
        System.out.println(Math.abs((int) a));
        System.out.println(StrictMath.abs(a));
        System.out.println(StrictMath.abs((int) a));
        for (int which = 0; which < 8; which++) {
            try {
                System.out.println(exact(which, a));
            } catch (ArithmeticException e) {
                System.out.println(-123456);
            }
        }
    }

    static long exact(int which, long a) {
        switch (which) {
            case 0: return Math.toIntExact(a);
            case 1: return StrictMath.toIntExact(a);
            case 2: return Math.negateExact(a);
            case 3: return Math.negateExact((int) a);
            case 4: return Math.incrementExact(a);
            case 5: return Math.incrementExact((int) a);
            case 6: return Math.decrementExact(a);
            default: return Math.decrementExact((int) a);
        }
    }

    static long two(int which, long a, long b) {
        int c = (int) a;
        int d = (int) b;
        switch (which) {
            case 0: return Math.max(a, b);
            case 1: return Math.min(a, b);
            case 2: return Math.max(c, d);
            case 3: return Math.min(c, d);
            case 4: return StrictMath.max(a, b) + 3 * StrictMath.min(a, b);
            case 5: return StrictMath.max(c, d) + 3L * StrictMath.min(c, d);
            case 6: return Math.addExact(a, b);
            case 7: return Math.addExact(c, d);
            case 8: return StrictMath.addExact(a, b);
            case 9: return StrictMath.addExact(c, d);
            case 10: return Math.subtractExact(a, b);
            case 11: return Math.subtractExact(c, d);
            case 12: return StrictMath.subtractExact(a, b);
            case 13: return StrictMath.subtractExact(c, d);
            case 14: return Math.multiplyExact(a, b);
            case 15: return Math.multiplyExact(c, d);
            case 16: return StrictMath.multiplyExact(a, b);
            case 17: return StrictMath.multiplyExact(c, d);
            case 18: return Math.floorDiv(a, b);
            case 19: return Math.floorDiv(c, d);
            case 20: return StrictMath.floorDiv(a, b);
            case 21: return StrictMath.floorDiv(c, d);
            case 22: return Math.floorMod(a, b);
            case 23: return Math.floorMod(c, d);
            case 24: return StrictMath.floorMod(a, b);
            default: return StrictMath.floorMod(c, d);
        }
    }
}
