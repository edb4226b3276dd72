/** The boxes of numbers, characters and truth values, without what makes or reads texts. */
public class Boxes {
    static final long[] LONGS = {0, 1, -1, 2, 7, -8, 100, 127, 128, -128, -129, 255, 256, 32767, 32768, -32768, -32769, 65535, 65536,
        0x7fffffffL, -0x80000000L, 0x80000000L, 0x123456789abcdef0L, -0x123456789abcdef0L, 0x7fffffffffffffffL, 0x8000000000000000L,
        0x00ff00ff00ff00ffL, 0x5555555555555555L, 0xaaaaaaaaaaaaaaaaL, 1L << 40, 3L << 60};

    public static void main(String[] arguments) {
        for (int i = 0; i < LONGS.length; i++) {
            ints((int) LONGS[i]);
            longs(LONGS[i]);
            shorts((short) LONGS[i]);
            bytes((byte) LONGS[i]);
            for (int j = 0; j < LONGS.length; j++) {
                pairs(LONGS[i], LONGS[j]);
            }
        }
        for (int c = 0; c < 256; c++) {
            latin((char) c);
        }
        int[] others = {0, 256, 0x1234, 0xd7ff, 0xd800, 0xdbff, 0xdc00, 0xdfff, 0xe000, 0xffff, 0x10000, 0x12345, 0x10ffff, 0x110000, -1};
        for (int i = 0; i < others.length; i++) {
            codes(others[i]);
        }
        truths();
        constants();
        caches();
    }

    static void ints(int a) {
        System.out.println(Integer.bitCount(a));
        System.out.println(Integer.highestOneBit(a));
        System.out.println(Integer.lowestOneBit(a));
        System.out.println(Integer.numberOfLeadingZeros(a));
        System.out.println(Integer.numberOfTrailingZeros(a));
        System.out.println(Integer.reverse(a));
        System.out.println(Integer.reverseBytes(a));
        System.out.println(Integer.signum(a));
        System.out.println(Integer.hashCode(a));
        System.out.println(Integer.toUnsignedLong(a));
        Integer box = Integer.valueOf(a);
        System.out.println(box.hashCode());
        System.out.println(box.intValue());
        System.out.println(box.longValue());
        System.out.println(box.shortValue());
        System.out.println(box.byteValue());
        Number number = new Integer(a);
        System.out.println(number.intValue());
        System.out.println(number.longValue());
        System.out.println(number.shortValue());
        System.out.println(number.byteValue());
        System.out.println(box.equals(number));
        System.out.println(box.equals(Long.valueOf(a)));
        System.out.println(box.equals(null));
    }

    static void longs(long a) {
        System.out.println(Long.bitCount(a));
        System.out.println(Long.highestOneBit(a));
        System.out.println(Long.lowestOneBit(a));
        System.out.println(Long.numberOfLeadingZeros(a));
        System.out.println(Long.numberOfTrailingZeros(a));
        System.out.println(Long.reverse(a));
        System.out.println(Long.reverseBytes(a));
        System.out.println(Long.signum(a));
        System.out.println(Long.hashCode(a));
        Long box = Long.valueOf(a);
        System.out.println(box.hashCode());
        System.out.println(box.intValue());
        System.out.println(box.longValue());
        System.out.println(box.shortValue());
        System.out.println(box.byteValue());
        System.out.println(box.equals(new Long(a)));
        System.out.println(box.equals(Integer.valueOf((int) a)));
    }

    static void shorts(short a) {
        System.out.println(Short.hashCode(a));
        System.out.println(Short.reverseBytes(a));
        System.out.println(Short.toUnsignedInt(a));
        System.out.println(Short.toUnsignedLong(a));
        Short box = Short.valueOf(a);
        System.out.println(box.hashCode());
        System.out.println(box.intValue());
        System.out.println(box.longValue());
        System.out.println(box.shortValue());
        System.out.println(box.byteValue());
        System.out.println(box.equals(new Short(a)));
        System.out.println(box.equals(Integer.valueOf(a)));
    }

    static void bytes(byte a) {
        System.out.println(Byte.hashCode(a));
        System.out.println(Byte.toUnsignedInt(a));
        System.out.println(Byte.toUnsignedLong(a));
        Byte box = Byte.valueOf(a);
        System.out.println(box.hashCode());
        System.out.println(box.intValue());
        System.out.println(box.longValue());
        System.out.println(box.shortValue());
        System.out.println(box.byteValue());
        System.out.println(box.equals(new Byte(a)));
        System.out.println(box.equals(Short.valueOf(a)));
    }

    static void pairs(long a, long b) {
        System.out.println(Long.compare(a, b));
        System.out.println(Long.compareUnsigned(a, b));
        System.out.println(Long.valueOf(a).compareTo(b));
        System.out.println(Long.max(a, b) + 3 * Long.min(a, b) + 5 * Long.sum(a, b));
        System.out.println(Long.rotateLeft(a, (int) b) + 3 * Long.rotateRight(a, (int) b));
        System.out.println(Integer.compare((int) a, (int) b));
        System.out.println(Integer.compareUnsigned((int) a, (int) b));
        System.out.println(Integer.valueOf((int) a).compareTo((int) b));
        System.out.println(Integer.max((int) a, (int) b) + 3L * Integer.min((int) a, (int) b) + 5L * Integer.sum((int) a, (int) b));
        System.out.println(Integer.rotateLeft((int) a, (int) b) + 3L * Integer.rotateRight((int) a, (int) b));
        System.out.println(Short.compare((short) a, (short) b));
        System.out.println(Short.valueOf((short) a).compareTo((short) b));
        System.out.println(Byte.compare((byte) a, (byte) b));
        System.out.println(Byte.valueOf((byte) a).compareTo((byte) b));
        System.out.println(Character.compare((char) a, (char) b));
        System.out.println(Character.valueOf((char) a).compareTo((char) b));
        try {
            System.out.println(Long.divideUnsigned(a, b));
            System.out.println(Long.remainderUnsigned(a, b));
            System.out.println(Integer.divideUnsigned((int) a, (int) b));
            System.out.println(Integer.remainderUnsigned((int) a, (int) b));
        } catch (ArithmeticException zero) {
            System.out.println(-77);
        }
    }

    static void latin(char c) {
        int is = 0;
        is = 2 * is + (Character.isDigit(c) ? 1 : 0);
        is = 2 * is + (Character.isDigit((int) c) ? 1 : 0);
        is = 2 * is + (Character.isLetter(c) ? 1 : 0);
        is = 2 * is + (Character.isLetter((int) c) ? 1 : 0);
        is = 2 * is + (Character.isLetterOrDigit(c) ? 1 : 0);
        is = 2 * is + (Character.isLetterOrDigit((int) c) ? 1 : 0);
        is = 2 * is + (Character.isAlphabetic(c) ? 1 : 0);
        is = 2 * is + (Character.isLowerCase(c) ? 1 : 0);
        is = 2 * is + (Character.isLowerCase((int) c) ? 1 : 0);
        is = 2 * is + (Character.isUpperCase(c) ? 1 : 0);
        is = 2 * is + (Character.isUpperCase((int) c) ? 1 : 0);
        is = 2 * is + (Character.isWhitespace(c) ? 1 : 0);
        is = 2 * is + (Character.isWhitespace((int) c) ? 1 : 0);
        is = 2 * is + (Character.isSpaceChar(c) ? 1 : 0);
        is = 2 * is + (Character.isSpaceChar((int) c) ? 1 : 0);
        is = 2 * is + (Character.isISOControl(c) ? 1 : 0);
        is = 2 * is + (Character.isISOControl((int) c) ? 1 : 0);
        is = 2 * is + (Character.isIdentifierIgnorable(c) ? 1 : 0);
        is = 2 * is + (Character.isIdentifierIgnorable((int) c) ? 1 : 0);
        is = 2 * is + (Character.isJavaIdentifierStart(c) ? 1 : 0);
        is = 2 * is + (Character.isJavaIdentifierStart((int) c) ? 1 : 0);
        is = 2 * is + (Character.isJavaIdentifierPart(c) ? 1 : 0);
        is = 2 * is + (Character.isJavaIdentifierPart((int) c) ? 1 : 0);
        System.out.println(is);
        System.out.println(Character.toLowerCase(c) + 65536L * Character.toLowerCase((int) c));
        System.out.println(Character.toUpperCase(c) + 65536L * Character.toUpperCase((int) c));
        System.out.println(Character.getNumericValue(c) + 1000L * Character.getNumericValue((int) c));
        for (int radix = 0; radix < 40; radix += 3) {
            System.out.println(Character.digit(c, radix) + 100L * Character.digit((int) c, radix));
            System.out.println((int) Character.forDigit(c - 10, radix));
        }
        Character box = Character.valueOf(c);
        System.out.println(box.hashCode() + 65536L * box.charValue());
        System.out.println(box.equals(new Character(c)));
        System.out.println(box.equals(Integer.valueOf(c)));
    }

    static void codes(int c) {
        int is = 0;
        char unit = (char) c;
        is = 2 * is + (Character.isHighSurrogate(unit) ? 1 : 0);
        is = 2 * is + (Character.isLowSurrogate(unit) ? 1 : 0);
        is = 2 * is + (Character.isSurrogate(unit) ? 1 : 0);
        is = 2 * is + (Character.isSurrogatePair(unit, '\udc00') ? 1 : 0);
        is = 2 * is + (Character.isSurrogatePair('\ud800', unit) ? 1 : 0);
        is = 2 * is + (Character.isValidCodePoint(c) ? 1 : 0);
        is = 2 * is + (Character.isBmpCodePoint(c) ? 1 : 0);
        is = 2 * is + (Character.isSupplementaryCodePoint(c) ? 1 : 0);
        System.out.println(is);
        System.out.println(Character.charCount(c));
        System.out.println(Character.toCodePoint(unit, '\udc37'));
        System.out.println((int) Character.highSurrogate(c));
        System.out.println((int) Character.lowSurrogate(c));
        System.out.println((int) Character.reverseBytes(unit));
        System.out.println(Character.hashCode(unit));
        try {
            char[] units = Character.toChars(c);
            System.out.println(units.length);
            System.out.println(units[0] + 65536L * units[units.length - 1]);
        } catch (IllegalArgumentException none) {
            System.out.println(-5);
        }
    }

    static void truths() {
        for (int i = 0; i < 4; i++) {
            boolean a = (i & 1) == 1;
            boolean b = i > 1;
            System.out.println(Boolean.compare(a, b));
            System.out.println(Boolean.valueOf(a).compareTo(b));
            System.out.println(Boolean.logicalAnd(a, b));
            System.out.println(Boolean.logicalOr(a, b));
            System.out.println(Boolean.logicalXor(a, b));
            System.out.println(Boolean.valueOf(a).equals(new Boolean(b)));
            System.out.println(Boolean.hashCode(a));
            System.out.println(Boolean.valueOf(a).hashCode());
            System.out.println(Boolean.valueOf(a).booleanValue());
            System.out.println(Boolean.valueOf(a) == (a ? Boolean.TRUE : Boolean.FALSE));
        }
        System.out.println(Boolean.TRUE.equals("x"));
        System.out.println(Boolean.toString(true) == "true");
        System.out.println(Boolean.toString(false) == "false");
        System.out.println(Boolean.FALSE.toString() == "false");
    }

    static void constants() {
        System.out.println(Integer.MIN_VALUE + Integer.SIZE + Integer.BYTES);
        System.out.println(Integer.MAX_VALUE);
        System.out.println(Long.MIN_VALUE + Long.SIZE + Long.BYTES);
        System.out.println(Long.MAX_VALUE);
        System.out.println(Short.MIN_VALUE + Short.SIZE + Short.BYTES);
        System.out.println(Byte.MIN_VALUE + Byte.SIZE + Byte.BYTES);
        System.out.println(Character.MAX_VALUE + Character.MAX_RADIX + Character.MIN_RADIX);
    }

    /** Which boxes are one object. */
    static void caches() {
        for (int i = -130; i < 260; i++) {
            Integer a = i;
            Integer b = i;
            Long c = (long) i;
            Long d = (long) i;
            Short e = (short) i;
            Short f = (short) i;
            Byte g = (byte) i;
            Byte h = (byte) i;
            Character k = (char) i;
            Character l = (char) i;
            System.out.println((a == b ? 1 : 0) + (c == d ? 2 : 0) + (e == f ? 4 : 0) + (g == h ? 8 : 0) + (k == l ? 16 : 0));
        }
    }
}
