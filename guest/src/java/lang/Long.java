package java.lang;

/** A long as an object. Those from -128 to 127 of valueOf are one object each. */
public final class Long extends Number implements Comparable<Long> {
    public static final long MIN_VALUE = 0x8000000000000000L;
    public static final long MAX_VALUE = 0x7fffffffffffffffL;
    public static final int SIZE = 64;
    public static final int BYTES = 8;

    private final long value;

    public Long(long value) {
        this.value = value;
    }

    public Long(String text) {
        this(parseLong(text));
    }

    static final class Cache {
        static final Long[] LONGS = new Long[256];

        static {
            for (int i = 0; i < 256; i++) {
                LONGS[i] = new Long(i - 128);
            }
        }
    }

    public static Long valueOf(long value) {
        return -128 <= value && value < 128 ? Cache.LONGS[(int) value + 128] : new Long(value);
    }

    public static Long valueOf(String text) {
        return valueOf(parseLong(text));
    }

    public static Long valueOf(String text, int radix) {
        return valueOf(parseLong(text, radix));
    }

    // TEXTS

    public static long parseLong(String text) {
        return parse(text, 0, 10, MIN_VALUE, MAX_VALUE);
    }

    public static long parseLong(String text, int radix) {
        return parse(text, 0, radix, MIN_VALUE, MAX_VALUE);
    }

    /** The number from that place on: a sign or none, and digits; it is refused outside of these bounds. */
    static long parse(String text, int from, int radix, long least, long greatest) {
        if (text == null || radix < Character.MIN_RADIX || radix > Character.MAX_RADIX || from >= text.length()) {
            throw NumberFormatException.of(text);
        }
        char sign = text.charAt(from);
        int at = sign == '-' || sign == '+' ? from + 1 : from;
        // Below zero there is one number more.
        long bound = sign == '-' ? least : -greatest;
        long negative = 0;
        if (at == text.length()) {
            throw NumberFormatException.of(text);
        }
        for (; at < text.length(); at++) {
            int digit = Character.digit(text.charAt(at), radix);
            if (digit < 0 || bound + digit > 0 || negative < (bound + digit) / radix) {
                throw NumberFormatException.of(text);
            }
            negative = negative * radix - digit;
        }
        return sign == '-' ? negative : -negative;
    }

    public static Long decode(String text) {
        return valueOf(decode(text, MIN_VALUE, MAX_VALUE));
    }

    /** A sign or none, then 0x, 0X or # for 16, 0 for 8, or nothing for 10, and digits. */
    static long decode(String text, long least, long greatest) {
        int length = text.length();
        int at = length > 0 && (text.charAt(0) == '-' || text.charAt(0) == '+') ? 1 : 0;
        boolean below = at == 1 && text.charAt(0) == '-';
        int radix = 10;
        if (at < length && text.charAt(at) == '#') {
            at++;
            radix = 16;
        } else if (at + 1 < length && text.charAt(at) == '0') {
            boolean hexadecimal = text.charAt(at + 1) == 'x' || text.charAt(at + 1) == 'X';
            at += hexadecimal ? 2 : 1;
            radix = hexadecimal ? 16 : 8;
        }
        if (at >= length || text.charAt(at) == '-' || text.charAt(at) == '+') {
            throw NumberFormatException.of(text);
        }
        if (!below) {
            return parse(text, at, radix, least, greatest);
        }
        StringBuilder negative = new StringBuilder("-");
        for (; at < length; at++) {
            negative.append(text.charAt(at));
        }
        return parse(negative.toString(), 0, radix, least, greatest);
    }

    @Override
    public String toString() {
        return toString(value);
    }

    public static String toString(long value) {
        return new StringBuilder().append(value).toString();
    }

    public static String toString(long value, int radix) {
        if (radix < Character.MIN_RADIX || radix > Character.MAX_RADIX) {
            radix = 10;
        }
        char[] digits = new char[65];
        int at = 65;
        long rest = value < 0 ? value : -value;
        do {
            digits[--at] = Character.forDigit((int) -(rest % radix), radix);
            rest /= radix;
        } while (rest != 0);
        if (value < 0) {
            digits[--at] = '-';
        }
        return textOf(digits, at);
    }

    /** Without a sign, with so many bits for each digit. */
    static String inBits(long value, int bits) {
        char[] digits = new char[64];
        int at = 64;
        do {
            digits[--at] = Character.forDigit((int) value & (1 << bits) - 1, 1 << bits);
            value >>>= bits;
        } while (value != 0);
        return textOf(digits, at);
    }

    private static String textOf(char[] digits, int from) {
        StringBuilder text = new StringBuilder();
        for (int i = from; i < digits.length; i++) {
            text.append(digits[i]);
        }
        return text.toString();
    }

    public static String toHexString(long value) {
        return inBits(value, 4);
    }

    public static String toOctalString(long value) {
        return inBits(value, 3);
    }

    public static String toBinaryString(long value) {
        return inBits(value, 1);
    }

    // THE NUMBER

    @Override
    public byte byteValue() {
        return (byte) value;
    }

    @Override
    public short shortValue() {
        return (short) value;
    }

    @Override
    public int intValue() {
        return (int) value;
    }

    @Override
    public long longValue() {
        return value;
    }

    public static int compare(long a, long b) {
        return a < b ? -1 : a == b ? 0 : 1;
    }

    public static int compareUnsigned(long a, long b) {
        return compare(a ^ MIN_VALUE, b ^ MIN_VALUE);
    }

    @Override
    public int compareTo(Long other) {
        return compare(value, other.value);
    }

    @Override
    public boolean equals(Object other) {
        return other instanceof Long && ((Long) other).value == value;
    }

    @Override
    public int hashCode() {
        return hashCode(value);
    }

    public static int hashCode(long value) {
        return (int) (value ^ value >>> 32);
    }

    public static long sum(long a, long b) {
        return a + b;
    }

    public static long max(long a, long b) {
        return a > b ? a : b;
    }

    public static long min(long a, long b) {
        return a < b ? a : b;
    }

    public static long divideUnsigned(long a, long b) {
        if (b < 0) {
            return compareUnsigned(a, b) < 0 ? 0 : 1;
        }
        if (a >= 0) {
            return a / b;
        }
        // Half of a is no negative number; what that leaves out is one more of b or nothing.
        long quotient = (a >>> 1) / b << 1;
        return compareUnsigned(a - quotient * b, b) < 0 ? quotient : quotient + 1;
    }

    public static long remainderUnsigned(long a, long b) {
        return a - divideUnsigned(a, b) * b;
    }

    public static int signum(long value) {
        return value > 0 ? 1 : value < 0 ? -1 : 0;
    }

    // ITS BITS

    public static int bitCount(long value) {
        return Integer.bitCount((int) value) + Integer.bitCount((int) (value >>> 32));
    }

    public static long highestOneBit(long value) {
        return value & MIN_VALUE >>> numberOfLeadingZeros(value);
    }

    public static long lowestOneBit(long value) {
        return value & -value;
    }

    public static int numberOfLeadingZeros(long value) {
        int high = (int) (value >>> 32);
        return high != 0 ? Integer.numberOfLeadingZeros(high) : 32 + Integer.numberOfLeadingZeros((int) value);
    }

    public static int numberOfTrailingZeros(long value) {
        int low = (int) value;
        return low != 0 ? Integer.numberOfTrailingZeros(low) : 32 + Integer.numberOfTrailingZeros((int) (value >>> 32));
    }

    public static long reverse(long value) {
        return (long) Integer.reverse((int) value) << 32 | Integer.toUnsignedLong(Integer.reverse((int) (value >>> 32)));
    }

    public static long reverseBytes(long value) {
        return (long) Integer.reverseBytes((int) value) << 32 | Integer.toUnsignedLong(Integer.reverseBytes((int) (value >>> 32)));
    }

    public static long rotateLeft(long value, int distance) {
        return value << distance | value >>> -distance;
    }

    public static long rotateRight(long value, int distance) {
        return value >>> distance | value << -distance;
    }
}
