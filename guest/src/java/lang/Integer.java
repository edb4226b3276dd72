package java.lang;

/** An int as an object. Those from -128 to 127 of valueOf are one object each. */
public final class Integer extends Number implements Comparable<Integer> {
    public static final int MIN_VALUE = 0x80000000;
    public static final int MAX_VALUE = 0x7fffffff;
    public static final int SIZE = 32;
    public static final int BYTES = 4;

    private final int value;

    public Integer(int value) {
        this.value = value;
    }

    public Integer(String text) {
        this(parseInt(text));
    }

    static final class Cache {
        static final Integer[] INTEGERS = new Integer[256];

        static {
            for (int i = 0; i < 256; i++) {
                INTEGERS[i] = new Integer(i - 128);
            }
        }
    }

    public static Integer valueOf(int value) {
        return -128 <= value && value < 128 ? Cache.INTEGERS[value + 128] : new Integer(value);
    }

    public static Integer valueOf(String text) {
        return valueOf(parseInt(text));
    }

    public static Integer valueOf(String text, int radix) {
        return valueOf(parseInt(text, radix));
    }

    // TEXTS

    public static int parseInt(String text) {
        return parseInt(text, 10);
    }

    public static int parseInt(String text, int radix) {
        return (int) Long.parse(text, 0, radix, MIN_VALUE, MAX_VALUE);
    }

    public static int parseUnsignedInt(String text) {
        return parseUnsignedInt(text, 10);
    }

    public static int parseUnsignedInt(String text, int radix) {
        if (text != null && text.length() > 0 && text.charAt(0) == '-') {
            throw NumberFormatException.of(text);
        }
        return (int) Long.parse(text, 0, radix, 0, 0xffffffffL);
    }

    public static Integer decode(String text) {
        return valueOf((int) Long.decode(text, MIN_VALUE, MAX_VALUE));
    }

    @Override
    public String toString() {
        return toString(value);
    }

    public static String toString(int value) {
        return new StringBuilder().append(value).toString();
    }

    public static String toString(int value, int radix) {
        return Long.toString(value, radix);
    }

    public static String toUnsignedString(int value) {
        return Long.toString(toUnsignedLong(value));
    }

    public static String toUnsignedString(int value, int radix) {
        return Long.toString(toUnsignedLong(value), radix);
    }

    public static String toHexString(int value) {
        return Long.inBits(toUnsignedLong(value), 4);
    }

    public static String toOctalString(int value) {
        return Long.inBits(toUnsignedLong(value), 3);
    }

    public static String toBinaryString(int value) {
        return Long.inBits(toUnsignedLong(value), 1);
    }

    // THE NUMBER

    @Override
    public int intValue() {
        return value;
    }

    @Override
    public long longValue() {
        return value;
    }

    public static int compare(int a, int b) {
        return a < b ? -1 : a == b ? 0 : 1;
    }

    public static int compareUnsigned(int a, int b) {
        return compare(a ^ MIN_VALUE, b ^ MIN_VALUE);
    }

    @Override
    public int compareTo(Integer other) {
        return compare(value, other.value);
    }

    @Override
    public boolean equals(Object other) {
        return other instanceof Integer && ((Integer) other).value == value;
    }

    @Override
    public int hashCode() {
        return value;
    }

    public static int hashCode(int value) {
        return value;
    }

    public static int sum(int a, int b) {
        return a + b;
    }

    public static int max(int a, int b) {
        return a > b ? a : b;
    }

    public static int min(int a, int b) {
        return a < b ? a : b;
    }

    public static long toUnsignedLong(int value) {
        return value & 0xffffffffL;
    }

    public static int divideUnsigned(int a, int b) {
        return (int) (toUnsignedLong(a) / toUnsignedLong(b));
    }

    public static int remainderUnsigned(int a, int b) {
        return (int) (toUnsignedLong(a) % toUnsignedLong(b));
    }

    public static int signum(int value) {
        return value > 0 ? 1 : value < 0 ? -1 : 0;
    }

    // ITS BITS

    public static int bitCount(int value) {
        int pairs = value - (value >>> 1 & 0x55555555);
        int fours = (pairs & 0x33333333) + (pairs >>> 2 & 0x33333333);
        return (fours + (fours >>> 4) & 0x0f0f0f0f) * 0x01010101 >>> 24;
    }

    public static int highestOneBit(int value) {
        return value & MIN_VALUE >>> numberOfLeadingZeros(value);
    }

    public static int lowestOneBit(int value) {
        return value & -value;
    }

    public static int numberOfLeadingZeros(int value) {
        if (value == 0) {
            return 32;
        }
        int zeros = 0;
        for (int width = 16; width > 0; width >>= 1) {
            if (value >>> 32 - width == 0) {
                zeros += width;
                value <<= width;
            }
        }
        return zeros;
    }

    public static int numberOfTrailingZeros(int value) {
        return value == 0 ? 32 : 31 - numberOfLeadingZeros(value & -value);
    }

    public static int reverse(int value) {
        int ones = (value & 0x55555555) << 1 | value >>> 1 & 0x55555555;
        int twos = (ones & 0x33333333) << 2 | ones >>> 2 & 0x33333333;
        return reverseBytes((twos & 0x0f0f0f0f) << 4 | twos >>> 4 & 0x0f0f0f0f);
    }

    public static int reverseBytes(int value) {
        return value << 24 | (value & 0xff00) << 8 | value >>> 8 & 0xff00 | value >>> 24;
    }

    public static int rotateLeft(int value, int distance) {
        return value << distance | value >>> -distance;
    }

    public static int rotateRight(int value, int distance) {
        return value >>> distance | value << -distance;
    }
}
