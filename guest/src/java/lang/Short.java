package java.lang;

/** A short as an object. Those from -128 to 127 of valueOf are one object each. */
public final class Short extends Number implements Comparable<Short> {
    public static final short MIN_VALUE = -32768;
    public static final short MAX_VALUE = 32767;
    public static final int SIZE = 16;
    public static final int BYTES = 2;

    private final short value;

    public Short(short value) {
        this.value = value;
    }

    public Short(String text) {
        this(parseShort(text));
    }

    static final class Cache {
        static final Short[] SHORTS = new Short[256];

        static {
            for (int i = 0; i < 256; i++) {
                SHORTS[i] = new Short((short) (i - 128));
            }
        }
    }

    public static Short valueOf(short value) {
        return -128 <= value && value < 128 ? Cache.SHORTS[value + 128] : new Short(value);
    }

    public static Short valueOf(String text) {
        return valueOf(parseShort(text));
    }

    public static Short valueOf(String text, int radix) {
        return valueOf(parseShort(text, radix));
    }

    public static Short decode(String text) {
        return valueOf((short) within(text, Integer.decode(text).intValue(), MIN_VALUE, MAX_VALUE));
    }

    public static short parseShort(String text) {
        return parseShort(text, 10);
    }

    public static short parseShort(String text, int radix) {
        return (short) within(text, Integer.parseInt(text, radix), MIN_VALUE, MAX_VALUE);
    }

    /** The number, if it is one of these. */
    static int within(String text, int number, int least, int greatest) {
        if (number < least || number > greatest) {
            throw NumberFormatException.of(text);
        }
        return number;
    }

    @Override
    public short shortValue() {
        return value;
    }

    @Override
    public int intValue() {
        return value;
    }

    @Override
    public long longValue() {
        return value;
    }

    public static int compare(short a, short b) {
        return a - b;
    }

    @Override
    public int compareTo(Short other) {
        return value - other.value;
    }

    @Override
    public boolean equals(Object other) {
        return other instanceof Short && ((Short) other).value == value;
    }

    @Override
    public int hashCode() {
        return value;
    }

    public static int hashCode(short value) {
        return value;
    }

    public static int toUnsignedInt(short value) {
        return value & 0xffff;
    }

    public static long toUnsignedLong(short value) {
        return value & 0xffff;
    }

    public static short reverseBytes(short value) {
        return (short) (value << 8 | (value & 0xff00) >> 8);
    }

    @Override
    public String toString() {
        return Integer.toString(value);
    }

    public static String toString(short value) {
        return Integer.toString(value);
    }
}
