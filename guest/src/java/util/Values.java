package java.util;

import elephant.Value;

/**
 * What collections ask of their elements. Object has no equals, hashCode and toString in the machine, so they are called by
 * the classes and interfaces that declare them. For an object of none of these the call goes to Object, and what it throws
 * there is not caught.
 */
final class Values {
    private Values() {}

    static boolean same(Object a, Object b) {
        if (a == b) {
            return true;
        }
        if (a == null || b == null) {
            return false;
        }
        if (a instanceof Integer) {
            return ((Integer) a).equals(b);
        }
        if (a instanceof String) {
            return ((String) a).equals(b);
        }
        if (a instanceof Long) {
            return ((Long) a).equals(b);
        }
        if (a instanceof Character) {
            return ((Character) a).equals(b);
        }
        if (a instanceof Value) {
            return ((Value) a).equals(b);
        }
        if (a instanceof Collection) {
            return ((Collection<?>) a).equals(b);
        }
        if (a instanceof Map) {
            return ((Map<?, ?>) a).equals(b);
        }
        if (a instanceof Map.Entry) {
            return ((Map.Entry<?, ?>) a).equals(b);
        }
        if (a instanceof Short) {
            return ((Short) a).equals(b);
        }
        if (a instanceof Byte) {
            return ((Byte) a).equals(b);
        }
        if (a instanceof Boolean) {
            return ((Boolean) a).equals(b);
        }
        return a.equals(b);
    }

    static int hash(Object a) {
        if (a == null) {
            return 0;
        }
        if (a instanceof Integer) {
            return ((Integer) a).hashCode();
        }
        if (a instanceof String) {
            return textHash((String) a);
        }
        if (a instanceof Long) {
            return ((Long) a).hashCode();
        }
        if (a instanceof Character) {
            return ((Character) a).hashCode();
        }
        if (a instanceof Value) {
            return ((Value) a).hashCode();
        }
        if (a instanceof Collection) {
            return ((Collection<?>) a).hashCode();
        }
        if (a instanceof Map) {
            return ((Map<?, ?>) a).hashCode();
        }
        if (a instanceof Map.Entry) {
            return ((Map.Entry<?, ?>) a).hashCode();
        }
        if (a instanceof Short) {
            return ((Short) a).hashCode();
        }
        if (a instanceof Byte) {
            return ((Byte) a).hashCode();
        }
        if (a instanceof Boolean) {
            return ((Boolean) a).hashCode();
        }
        return a.hashCode();
    }

    /** The hash code that String documents: its units in base 31. */
    private static int textHash(String text) {
        int hash = 0;
        int length = text.length();
        for (int i = 0; i < length; i++) {
            hash = 31 * hash + text.charAt(i);
        }
        return hash;
    }

    /** The natural order. A String is no Comparable in the machine, and is compared as String documents. */
    @SuppressWarnings("unchecked")
    static int compare(Object a, Object b) {
        if (a instanceof String) {
            return compareTexts((String) a, (String) b);
        }
        return ((Comparable<Object>) a).compareTo(b);
    }

    private static int compareTexts(String a, String b) {
        int shorter = Math.min(a.length(), b.length());
        for (int i = 0; i < shorter; i++) {
            int difference = a.charAt(i) - b.charAt(i);
            if (difference != 0) {
                return difference;
            }
        }
        return a.length() - b.length();
    }

    @SuppressWarnings("unchecked")
    static int compare(Comparator<?> order, Object a, Object b) {
        return order == null ? compare(a, b) : ((Comparator<Object>) order).compare(a, b);
    }

    static String text(Object a) {
        if (a == null) {
            return "null";
        }
        if (a instanceof String) {
            return (String) a;
        }
        if (a instanceof Integer) {
            return ((Integer) a).toString();
        }
        if (a instanceof Long) {
            return ((Long) a).toString();
        }
        if (a instanceof Character) {
            return ((Character) a).toString();
        }
        if (a instanceof Value) {
            return ((Value) a).toString();
        }
        if (a instanceof AbstractCollection) {
            return ((AbstractCollection<?>) a).toString();
        }
        if (a instanceof AbstractMap) {
            return ((AbstractMap<?, ?>) a).toString();
        }
        if (a instanceof Locked.OfCollection) {
            return ((Locked.OfCollection<?>) a).toString();
        }
        if (a instanceof Locked.OfMap) {
            return ((Locked.OfMap<?, ?>) a).toString();
        }
        if (a instanceof AbstractMap.Pair) {
            return ((AbstractMap.Pair<?, ?>) a).toString();
        }
        if (a instanceof Short) {
            return ((Short) a).toString();
        }
        if (a instanceof Byte) {
            return ((Byte) a).toString();
        }
        if (a instanceof Boolean) {
            return ((Boolean) a).toString();
        }
        return a.toString();
    }

    /** A key gets this value, or goes where it is null. */
    static <K, V> V become(Map<K, V> map, K key, V value) {
        if (value != null) {
            map.put(key, value);
        } else {
            map.remove(key);
        }
        return value;
    }

    /** An array of the same class, if that is Object[] or one of those that can be known. */
    static Object[] arrayLike(Object[] array, int length) {
        if (array instanceof Integer[]) {
            return new Integer[length];
        }
        if (array instanceof Long[]) {
            return new Long[length];
        }
        if (array instanceof Short[]) {
            return new Short[length];
        }
        if (array instanceof Byte[]) {
            return new Byte[length];
        }
        if (array instanceof Character[]) {
            return new Character[length];
        }
        if (array instanceof Boolean[]) {
            return new Boolean[length];
        }
        if (array instanceof String[]) {
            return new String[length];
        }
        if (array instanceof int[][]) {
            return new int[length][];
        }
        if (array instanceof long[][]) {
            return new long[length][];
        }
        if (array instanceof short[][]) {
            return new short[length][];
        }
        if (array instanceof byte[][]) {
            return new byte[length][];
        }
        if (array instanceof char[][]) {
            return new char[length][];
        }
        if (array instanceof boolean[][]) {
            return new boolean[length][];
        }
        return new Object[length];
    }

    /** Refuses an index that isn't below the bound. */
    static void checkIndex(int index, int bound) {
        if (index < 0 || index >= bound) {
            throw new IndexOutOfBoundsException();
        }
    }
}
