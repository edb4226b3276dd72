package java.lang;

/**
 * A char as an object. Those up to 127 of valueOf are one object each. What a character is, is known up to 255 (Latin-1);
 * of the ones above, UnsupportedOperationException is thrown.
 */
public final class Character implements java.io.Serializable, Comparable<Character> {
    public static final char MIN_VALUE = '\u0000';
    public static final char MAX_VALUE = '\uffff';
    public static final int MIN_RADIX = 2;
    public static final int MAX_RADIX = 36;
    public static final int SIZE = 16;
    public static final int BYTES = 2;
    public static final char MIN_HIGH_SURROGATE = '\ud800';
    public static final char MAX_HIGH_SURROGATE = '\udbff';
    public static final char MIN_LOW_SURROGATE = '\udc00';
    public static final char MAX_LOW_SURROGATE = '\udfff';
    public static final char MIN_SURROGATE = MIN_HIGH_SURROGATE;
    public static final char MAX_SURROGATE = MAX_LOW_SURROGATE;
    public static final int MIN_CODE_POINT = 0;
    public static final int MAX_CODE_POINT = 0x10ffff;
    public static final int MIN_SUPPLEMENTARY_CODE_POINT = 0x10000;

    private final char value;

    public Character(char value) {
        this.value = value;
    }

    static final class Cache {
        static final Character[] CHARACTERS = new Character[128];

        static {
            for (int i = 0; i < 128; i++) {
                CHARACTERS[i] = new Character((char) i);
            }
        }
    }

    public static Character valueOf(char value) {
        return value < 128 ? Cache.CHARACTERS[value] : new Character(value);
    }

    public char charValue() {
        return value;
    }

    public static int compare(char a, char b) {
        return a - b;
    }

    @Override
    public int compareTo(Character other) {
        return value - other.value;
    }

    @Override
    public boolean equals(Object other) {
        return other instanceof Character && ((Character) other).value == value;
    }

    @Override
    public int hashCode() {
        return value;
    }

    public static int hashCode(char value) {
        return value;
    }

    @Override
    public String toString() {
        return toString(value);
    }

    public static String toString(char value) {
        return new StringBuilder().append(value).toString();
    }

    public static char reverseBytes(char value) {
        return (char) (value << 8 | value >> 8);
    }

    // DIGITS

    public static int digit(char c, int radix) {
        return digit((int) c, radix);
    }

    public static int digit(int c, int radix) {
        int value = known(c) < 128 ? getNumericValue(c) : -1;
        return radix < MIN_RADIX || radix > MAX_RADIX || value >= radix ? -1 : value;
    }

    public static char forDigit(int digit, int radix) {
        if (radix < MIN_RADIX || radix > MAX_RADIX || digit < 0 || digit >= radix) {
            return 0;
        }
        return (char) (digit < 10 ? '0' + digit : 'a' - 10 + digit);
    }

    public static int getNumericValue(char c) {
        return getNumericValue((int) c);
    }

    /** -2 is a number that is no whole one, and -1 no number. */
    public static int getNumericValue(int c) {
        if (isDigit(c)) {
            return c - '0';
        }
        if ('a' <= c && c <= 'z') {
            return c - 'a' + 10;
        }
        if ('A' <= c && c <= 'Z') {
            return c - 'A' + 10;
        }
        return c == 0xb2 || c == 0xb3 ? c - 0xb0 : c == 0xb9 ? 1 : 0xbc <= c && c <= 0xbe ? -2 : -1;
    }

    // WHAT A CHARACTER IS

    private static int known(int c) {
        if (c < 0 || c > 255) {
            throw new UnsupportedOperationException("a character above 255");
        }
        return c;
    }

    public static boolean isDigit(char c) {
        return isDigit((int) c);
    }

    public static boolean isDigit(int c) {
        return '0' <= known(c) && c <= '9';
    }

    public static boolean isLetter(char c) {
        return isLetter((int) c);
    }

    public static boolean isLetter(int c) {
        return isLowerCase(c) || isUpperCase(c);
    }

    public static boolean isLetterOrDigit(char c) {
        return isLetterOrDigit((int) c);
    }

    public static boolean isLetterOrDigit(int c) {
        return isLetter(c) || isDigit(c);
    }

    public static boolean isAlphabetic(int c) {
        return isLetter(c);
    }

    public static boolean isLowerCase(char c) {
        return isLowerCase((int) c);
    }

    public static boolean isLowerCase(int c) {
        return 'a' <= known(c) && c <= 'z' || 0xdf <= c && c != 0xf7 || c == 0xaa || c == 0xb5 || c == 0xba;
    }

    public static boolean isUpperCase(char c) {
        return isUpperCase((int) c);
    }

    public static boolean isUpperCase(int c) {
        return 'A' <= known(c) && c <= 'Z' || 0xc0 <= c && c <= 0xde && c != 0xd7;
    }

    public static boolean isWhitespace(char c) {
        return isWhitespace((int) c);
    }

    public static boolean isWhitespace(int c) {
        return 9 <= known(c) && c <= 13 || 28 <= c && c <= 32;
    }

    public static boolean isSpaceChar(char c) {
        return isSpaceChar((int) c);
    }

    public static boolean isSpaceChar(int c) {
        return known(c) == 32 || c == 0xa0;
    }

    public static boolean isISOControl(char c) {
        return isISOControl((int) c);
    }

    public static boolean isISOControl(int c) {
        return 0 <= c && c <= 0x9f && (c <= 0x1f || c >= 0x7f);
    }

    public static boolean isIdentifierIgnorable(char c) {
        return isIdentifierIgnorable((int) c);
    }

    public static boolean isIdentifierIgnorable(int c) {
        return known(c) <= 8 || 14 <= c && c <= 27 || 0x7f <= c && c <= 0x9f || c == 0xad;
    }

    public static boolean isJavaIdentifierStart(char c) {
        return isJavaIdentifierStart((int) c);
    }

    public static boolean isJavaIdentifierStart(int c) {
        return isLetter(c) || c == '$' || c == '_' || 0xa2 <= c && c <= 0xa5;
    }

    public static boolean isJavaIdentifierPart(char c) {
        return isJavaIdentifierPart((int) c);
    }

    public static boolean isJavaIdentifierPart(int c) {
        return isJavaIdentifierStart(c) || isDigit(c) || isIdentifierIgnorable(c);
    }

    public static char toLowerCase(char c) {
        return (char) toLowerCase((int) c);
    }

    public static int toLowerCase(int c) {
        return isUpperCase(c) ? c + 32 : c;
    }

    public static char toUpperCase(char c) {
        return (char) toUpperCase((int) c);
    }

    public static int toUpperCase(int c) {
        if (c == 0xb5) {
            return 0x39c;
        }
        if (c == 0xff) {
            return 0x178;
        }
        return isLowerCase(c) && c != 0xaa && c != 0xba && c != 0xdf ? c - 32 : c;
    }

    // PAIRS OF CHARACTERS

    public static boolean isHighSurrogate(char c) {
        return MIN_HIGH_SURROGATE <= c && c <= MAX_HIGH_SURROGATE;
    }

    public static boolean isLowSurrogate(char c) {
        return MIN_LOW_SURROGATE <= c && c <= MAX_LOW_SURROGATE;
    }

    public static boolean isSurrogate(char c) {
        return MIN_SURROGATE <= c && c <= MAX_SURROGATE;
    }

    public static boolean isSurrogatePair(char high, char low) {
        return isHighSurrogate(high) && isLowSurrogate(low);
    }

    public static boolean isValidCodePoint(int c) {
        return 0 <= c && c <= MAX_CODE_POINT;
    }

    public static boolean isBmpCodePoint(int c) {
        return 0 <= c && c <= 0xffff;
    }

    public static boolean isSupplementaryCodePoint(int c) {
        return MIN_SUPPLEMENTARY_CODE_POINT <= c && c <= MAX_CODE_POINT;
    }

    public static int charCount(int c) {
        return c >= MIN_SUPPLEMENTARY_CODE_POINT ? 2 : 1;
    }

    public static int toCodePoint(char high, char low) {
        return (high - MIN_HIGH_SURROGATE << 10) + (low - MIN_LOW_SURROGATE) + MIN_SUPPLEMENTARY_CODE_POINT;
    }

    public static char highSurrogate(int c) {
        return (char) (MIN_HIGH_SURROGATE + (c - MIN_SUPPLEMENTARY_CODE_POINT >>> 10));
    }

    public static char lowSurrogate(int c) {
        return (char) (MIN_LOW_SURROGATE + (c & 0x3ff));
    }

    public static char[] toChars(int c) {
        if (!isValidCodePoint(c)) {
            throw new IllegalArgumentException();
        }
        return charCount(c) == 1 ? new char[] {(char) c} : new char[] {highSurrogate(c), lowSurrogate(c)};
    }
}
