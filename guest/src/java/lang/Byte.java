package java.lang;

/** A byte as an object. Those of valueOf are one object each. */
public final class Byte extends Number implements Comparable<Byte> {
    public static final byte MIN_VALUE = -128;
    public static final byte MAX_VALUE = 127;
    public static final int SIZE = 8;
    public static final int BYTES = 1;

    private final byte value;

    public Byte(byte value) {
        this.value = value;
    }

    public Byte(String text) {
        this(parseByte(text));
    }

    static final class Cache {
        static final Byte[] BYTES = new Byte[256];

        static {
            for (int i = 0; i < 256; i++) {
                BYTES[i] = new Byte((byte) (i - 128));
            }
        }
    }

    public static Byte valueOf(byte value) {
        return Cache.BYTES[value + 128];
    }

    public static Byte valueOf(String text) {
        return valueOf(parseByte(text));
    }

    public static Byte valueOf(String text, int radix) {
        return valueOf(parseByte(text, radix));
    }

    public static Byte decode(String text) {
        return valueOf((byte) Short.within(text, Integer.decode(text).intValue(), MIN_VALUE, MAX_VALUE));
    }

    public static byte parseByte(String text) {
        return parseByte(text, 10);
    }

    public static byte parseByte(String text, int radix) {
        return (byte) Short.within(text, Integer.parseInt(text, radix), MIN_VALUE, MAX_VALUE);
    }

    @Override
    public byte byteValue() {
        return value;
    }

    @Override
    public short shortValue() {
        return value;
    }

    @Override
    public int intValue() {
        return value;
    }

    @Override
    public long longValue() {
        return value;
    }

    public static int compare(byte a, byte b) {
        return a - b;
    }

    @Override
    public int compareTo(Byte other) {
        return value - other.value;
    }

    @Override
    public boolean equals(Object other) {
        return other instanceof Byte && ((Byte) other).value == value;
    }

    @Override
    public int hashCode() {
        return value;
    }

    public static int hashCode(byte value) {
        return value;
    }

    public static int toUnsignedInt(byte value) {
        return value & 0xff;
    }

    public static long toUnsignedLong(byte value) {
        return value & 0xff;
    }

    @Override
    public String toString() {
        return Integer.toString(value);
    }

    public static String toString(byte value) {
        return Integer.toString(value);
    }
}
