package java.util;

/**
 * The generator that the class documents: a linear congruential one of 48 bits, of which the upper ones are given. Numbers of
 * a seed are those of every Java; without a seed, it begins with a seed that is always the same.
 */
public class Random implements java.io.Serializable {
    private static final long MULTIPLIER = 0x5DEECE66DL;
    private static final long MASK = (1L << 48) - 1;

    private long seed;

    public Random() {
        this(0);
    }

    public Random(long seed) {
        this.seed = (seed ^ MULTIPLIER) & MASK;
    }

    public synchronized void setSeed(long seed) {
        this.seed = (seed ^ MULTIPLIER) & MASK;
    }

    protected synchronized int next(int bits) {
        seed = seed * MULTIPLIER + 0xBL & MASK;
        return (int) (seed >>> 48 - bits);
    }

    public int nextInt() {
        return next(32);
    }

    /** From 0 up to the bound, without it, each number as often as each other. */
    public int nextInt(int bound) {
        if (bound <= 0) {
            throw new IllegalArgumentException("bound must be positive");
        }
        int bits = next(31);
        if ((bound & -bound) == bound) {
            return (int) ((long) bound * bits >> 31);
        }
        int number = bits % bound;
        while (bits - number + (bound - 1) < 0) {
            bits = next(31);
            number = bits % bound;
        }
        return number;
    }

    public long nextLong() {
        long high = (long) next(32) << 32;
        return high + next(32);
    }

    public boolean nextBoolean() {
        return next(1) != 0;
    }

    public void nextBytes(byte[] bytes) {
        int word = 0;
        for (int i = 0; i < bytes.length; i++) {
            word = i % 4 == 0 ? nextInt() : word >> 8;
            bytes[i] = (byte) word;
        }
    }
}
