package java.util;

import java.util.function.Supplier;

/** What is asked of objects that may be null. */
public final class Objects {
    private Objects() {}

    public static boolean equals(Object a, Object b) {
        return Values.same(a, b);
    }

    /** Arrays are equal where what they hold is. */
    public static boolean deepEquals(Object a, Object b) {
        return Arrays.deepSame(a, b);
    }

    public static int hashCode(Object a) {
        return Values.hash(a);
    }

    public static int hash(Object... all) {
        return Arrays.hashCode(all);
    }

    public static String toString(Object a) {
        return Values.text(a);
    }

    public static String toString(Object a, String forNull) {
        return a == null ? forNull : Values.text(a);
    }

    public static <T> int compare(T a, T b, Comparator<? super T> order) {
        return a == b ? 0 : order.compare(a, b);
    }

    public static boolean isNull(Object a) {
        return a == null;
    }

    public static boolean nonNull(Object a) {
        return a != null;
    }

    public static <T> T requireNonNull(T a) {
        if (a == null) {
            throw new NullPointerException();
        }
        return a;
    }

    public static <T> T requireNonNull(T a, String message) {
        if (a == null) {
            throw new NullPointerException(message);
        }
        return a;
    }

    public static <T> T requireNonNull(T a, Supplier<String> message) {
        if (a == null) {
            throw new NullPointerException(message == null ? null : message.get());
        }
        return a;
    }
}
