package java.util;

/**
 * Arrays: sorted, searched, filled, copied and compared. Numbers are sorted in place, as a heap; references by merging, so
 * that equal ones keep their order. A copy of an array of references is of its class if that is Object[] or an array of
 * String, of boxes or of arrays of numbers; for others it is an Object[].
 */
public final class Arrays {
    private Arrays() {}

    private static final int FEW = 8;

    private static void checkRange(int length, int from, int to) {
        if (from > to) {
            throw new IllegalArgumentException();
        }
        if (from < 0 || to > length) {
            throw new ArrayIndexOutOfBoundsException();
        }
    }

    /** How long a copy of this range is. */
    private static int lengthOf(int length, int from, int to) {
        if (from > to) {
            throw new IllegalArgumentException();
        }
        if (from < 0 || from > length) {
            throw new ArrayIndexOutOfBoundsException();
        }
        return to - from;
    }

    // ARRAYS OF INT

    public static void fill(int[] array, int value) {
        fill(array, 0, array.length, value);
    }

    public static void fill(int[] array, int from, int to, int value) {
        checkRange(array.length, from, to);
        for (int i = from; i < to; i++) {
            array[i] = value;
        }
    }

    public static int[] copyOf(int[] array, int length) {
        int[] copy = new int[length];
        int both = Math.min(length, array.length);
        for (int i = 0; i < both; i++) {
            copy[i] = array[i];
        }
        return copy;
    }

    public static int[] copyOfRange(int[] array, int from, int to) {
        int[] copy = new int[lengthOf(array.length, from, to)];
        int both = Math.min(copy.length, array.length - from);
        for (int i = 0; i < both; i++) {
            copy[i] = array[from + i];
        }
        return copy;
    }

    public static boolean equals(int[] a, int[] b) {
        if (a == b) {
            return true;
        }
        if (a == null || b == null || a.length != b.length) {
            return false;
        }
        for (int i = 0; i < a.length; i++) {
            if (a[i] != b[i]) {
                return false;
            }
        }
        return true;
    }

    public static int hashCode(int[] array) {
        if (array == null) {
            return 0;
        }
        int hash = 1;
        for (int i = 0; i < array.length; i++) {
            hash = 31 * hash + array[i];
        }
        return hash;
    }

    public static String toString(int[] array) {
        if (array == null) {
            return "null";
        }
        StringBuilder text = new StringBuilder("[");
        for (int i = 0; i < array.length; i++) {
            text.append(i == 0 ? "" : ", ").append(array[i]);
        }
        return text.append(']').toString();
    }

    public static void sort(int[] array) {
        sort(array, 0, array.length);
    }

    public static void sort(int[] array, int from, int to) {
        checkRange(array.length, from, to);
        int size = to - from;
        for (int i = (size >>> 1) - 1; i >= 0; i--) {
            sink(array, from, size, i, array[from + i]);
        }
        for (int last = size - 1; last > 0; last--) {
            int moved = array[from + last];
            array[from + last] = array[from];
            sink(array, from, last, 0, moved);
        }
    }

    /** Puts a value into the heap of this size at a place, or below it where greater ones are. */
    private static void sink(int[] array, int from, int size, int at, int value) {
        int child = 2 * at + 1;
        while (child < size) {
            if (child + 1 < size && array[from + child] < array[from + child + 1]) {
                child++;
            }
            if (array[from + child] <= value) {
                break;
            }
            array[from + at] = array[from + child];
            at = child;
            child = 2 * at + 1;
        }
        array[from + at] = value;
    }

    public static int binarySearch(int[] array, int key) {
        return binarySearch(array, 0, array.length, key);
    }

    public static int binarySearch(int[] array, int from, int to, int key) {
        checkRange(array.length, from, to);
        int low = from;
        int high = to - 1;
        while (low <= high) {
            int middle = low + high >>> 1;
            if (array[middle] == key) {
                return middle;
            }
            if (array[middle] < key) {
                low = middle + 1;
            } else {
                high = middle - 1;
            }
        }
        return -(low + 1);
    }

    // ARRAYS OF LONG

    public static void fill(long[] array, long value) {
        fill(array, 0, array.length, value);
    }

    public static void fill(long[] array, int from, int to, long value) {
        checkRange(array.length, from, to);
        for (int i = from; i < to; i++) {
            array[i] = value;
        }
    }

    public static long[] copyOf(long[] array, int length) {
        long[] copy = new long[length];
        int both = Math.min(length, array.length);
        for (int i = 0; i < both; i++) {
            copy[i] = array[i];
        }
        return copy;
    }

    public static long[] copyOfRange(long[] array, int from, int to) {
        long[] copy = new long[lengthOf(array.length, from, to)];
        int both = Math.min(copy.length, array.length - from);
        for (int i = 0; i < both; i++) {
            copy[i] = array[from + i];
        }
        return copy;
    }

    public static boolean equals(long[] a, long[] b) {
        if (a == b) {
            return true;
        }
        if (a == null || b == null || a.length != b.length) {
            return false;
        }
        for (int i = 0; i < a.length; i++) {
            if (a[i] != b[i]) {
                return false;
            }
        }
        return true;
    }

    public static int hashCode(long[] array) {
        if (array == null) {
            return 0;
        }
        int hash = 1;
        for (int i = 0; i < array.length; i++) {
            hash = 31 * hash + Long.hashCode(array[i]);
        }
        return hash;
    }

    public static String toString(long[] array) {
        if (array == null) {
            return "null";
        }
        StringBuilder text = new StringBuilder("[");
        for (int i = 0; i < array.length; i++) {
            text.append(i == 0 ? "" : ", ").append(array[i]);
        }
        return text.append(']').toString();
    }

    public static void sort(long[] array) {
        sort(array, 0, array.length);
    }

    public static void sort(long[] array, int from, int to) {
        checkRange(array.length, from, to);
        int size = to - from;
        for (int i = (size >>> 1) - 1; i >= 0; i--) {
            sink(array, from, size, i, array[from + i]);
        }
        for (int last = size - 1; last > 0; last--) {
            long moved = array[from + last];
            array[from + last] = array[from];
            sink(array, from, last, 0, moved);
        }
    }

    /** Puts a value into the heap of this size at a place, or below it where greater ones are. */
    private static void sink(long[] array, int from, int size, int at, long value) {
        int child = 2 * at + 1;
        while (child < size) {
            if (child + 1 < size && array[from + child] < array[from + child + 1]) {
                child++;
            }
            if (array[from + child] <= value) {
                break;
            }
            array[from + at] = array[from + child];
            at = child;
            child = 2 * at + 1;
        }
        array[from + at] = value;
    }

    public static int binarySearch(long[] array, long key) {
        return binarySearch(array, 0, array.length, key);
    }

    public static int binarySearch(long[] array, int from, int to, long key) {
        checkRange(array.length, from, to);
        int low = from;
        int high = to - 1;
        while (low <= high) {
            int middle = low + high >>> 1;
            if (array[middle] == key) {
                return middle;
            }
            if (array[middle] < key) {
                low = middle + 1;
            } else {
                high = middle - 1;
            }
        }
        return -(low + 1);
    }

    // ARRAYS OF CHAR

    public static void fill(char[] array, char value) {
        fill(array, 0, array.length, value);
    }

    public static void fill(char[] array, int from, int to, char value) {
        checkRange(array.length, from, to);
        for (int i = from; i < to; i++) {
            array[i] = value;
        }
    }

    public static char[] copyOf(char[] array, int length) {
        char[] copy = new char[length];
        int both = Math.min(length, array.length);
        for (int i = 0; i < both; i++) {
            copy[i] = array[i];
        }
        return copy;
    }

    public static char[] copyOfRange(char[] array, int from, int to) {
        char[] copy = new char[lengthOf(array.length, from, to)];
        int both = Math.min(copy.length, array.length - from);
        for (int i = 0; i < both; i++) {
            copy[i] = array[from + i];
        }
        return copy;
    }

    public static boolean equals(char[] a, char[] b) {
        if (a == b) {
            return true;
        }
        if (a == null || b == null || a.length != b.length) {
            return false;
        }
        for (int i = 0; i < a.length; i++) {
            if (a[i] != b[i]) {
                return false;
            }
        }
        return true;
    }

    public static int hashCode(char[] array) {
        if (array == null) {
            return 0;
        }
        int hash = 1;
        for (int i = 0; i < array.length; i++) {
            hash = 31 * hash + array[i];
        }
        return hash;
    }

    public static String toString(char[] array) {
        if (array == null) {
            return "null";
        }
        StringBuilder text = new StringBuilder("[");
        for (int i = 0; i < array.length; i++) {
            text.append(i == 0 ? "" : ", ").append(array[i]);
        }
        return text.append(']').toString();
    }

    public static void sort(char[] array) {
        sort(array, 0, array.length);
    }

    public static void sort(char[] array, int from, int to) {
        checkRange(array.length, from, to);
        int size = to - from;
        for (int i = (size >>> 1) - 1; i >= 0; i--) {
            sink(array, from, size, i, array[from + i]);
        }
        for (int last = size - 1; last > 0; last--) {
            char moved = array[from + last];
            array[from + last] = array[from];
            sink(array, from, last, 0, moved);
        }
    }

    /** Puts a value into the heap of this size at a place, or below it where greater ones are. */
    private static void sink(char[] array, int from, int size, int at, char value) {
        int child = 2 * at + 1;
        while (child < size) {
            if (child + 1 < size && array[from + child] < array[from + child + 1]) {
                child++;
            }
            if (array[from + child] <= value) {
                break;
            }
            array[from + at] = array[from + child];
            at = child;
            child = 2 * at + 1;
        }
        array[from + at] = value;
    }

    public static int binarySearch(char[] array, char key) {
        return binarySearch(array, 0, array.length, key);
    }

    public static int binarySearch(char[] array, int from, int to, char key) {
        checkRange(array.length, from, to);
        int low = from;
        int high = to - 1;
        while (low <= high) {
            int middle = low + high >>> 1;
            if (array[middle] == key) {
                return middle;
            }
            if (array[middle] < key) {
                low = middle + 1;
            } else {
                high = middle - 1;
            }
        }
        return -(low + 1);
    }

    // ARRAYS OF SHORT

    public static void fill(short[] array, short value) {
        fill(array, 0, array.length, value);
    }

    public static void fill(short[] array, int from, int to, short value) {
        checkRange(array.length, from, to);
        for (int i = from; i < to; i++) {
            array[i] = value;
        }
    }

    public static short[] copyOf(short[] array, int length) {
        short[] copy = new short[length];
        int both = Math.min(length, array.length);
        for (int i = 0; i < both; i++) {
            copy[i] = array[i];
        }
        return copy;
    }

    public static short[] copyOfRange(short[] array, int from, int to) {
        short[] copy = new short[lengthOf(array.length, from, to)];
        int both = Math.min(copy.length, array.length - from);
        for (int i = 0; i < both; i++) {
            copy[i] = array[from + i];
        }
        return copy;
    }

    public static boolean equals(short[] a, short[] b) {
        if (a == b) {
            return true;
        }
        if (a == null || b == null || a.length != b.length) {
            return false;
        }
        for (int i = 0; i < a.length; i++) {
            if (a[i] != b[i]) {
                return false;
            }
        }
        return true;
    }

    public static int hashCode(short[] array) {
        if (array == null) {
            return 0;
        }
        int hash = 1;
        for (int i = 0; i < array.length; i++) {
            hash = 31 * hash + array[i];
        }
        return hash;
    }

    public static String toString(short[] array) {
        if (array == null) {
            return "null";
        }
        StringBuilder text = new StringBuilder("[");
        for (int i = 0; i < array.length; i++) {
            text.append(i == 0 ? "" : ", ").append(array[i]);
        }
        return text.append(']').toString();
    }

    public static void sort(short[] array) {
        sort(array, 0, array.length);
    }

    public static void sort(short[] array, int from, int to) {
        checkRange(array.length, from, to);
        int size = to - from;
        for (int i = (size >>> 1) - 1; i >= 0; i--) {
            sink(array, from, size, i, array[from + i]);
        }
        for (int last = size - 1; last > 0; last--) {
            short moved = array[from + last];
            array[from + last] = array[from];
            sink(array, from, last, 0, moved);
        }
    }

    /** Puts a value into the heap of this size at a place, or below it where greater ones are. */
    private static void sink(short[] array, int from, int size, int at, short value) {
        int child = 2 * at + 1;
        while (child < size) {
            if (child + 1 < size && array[from + child] < array[from + child + 1]) {
                child++;
            }
            if (array[from + child] <= value) {
                break;
            }
            array[from + at] = array[from + child];
            at = child;
            child = 2 * at + 1;
        }
        array[from + at] = value;
    }

    public static int binarySearch(short[] array, short key) {
        return binarySearch(array, 0, array.length, key);
    }

    public static int binarySearch(short[] array, int from, int to, short key) {
        checkRange(array.length, from, to);
        int low = from;
        int high = to - 1;
        while (low <= high) {
            int middle = low + high >>> 1;
            if (array[middle] == key) {
                return middle;
            }
            if (array[middle] < key) {
                low = middle + 1;
            } else {
                high = middle - 1;
            }
        }
        return -(low + 1);
    }

    // ARRAYS OF BYTE

    public static void fill(byte[] array, byte value) {
        fill(array, 0, array.length, value);
    }

    public static void fill(byte[] array, int from, int to, byte value) {
        checkRange(array.length, from, to);
        for (int i = from; i < to; i++) {
            array[i] = value;
        }
    }

    public static byte[] copyOf(byte[] array, int length) {
        byte[] copy = new byte[length];
        int both = Math.min(length, array.length);
        for (int i = 0; i < both; i++) {
            copy[i] = array[i];
        }
        return copy;
    }

    public static byte[] copyOfRange(byte[] array, int from, int to) {
        byte[] copy = new byte[lengthOf(array.length, from, to)];
        int both = Math.min(copy.length, array.length - from);
        for (int i = 0; i < both; i++) {
            copy[i] = array[from + i];
        }
        return copy;
    }

    public static boolean equals(byte[] a, byte[] b) {
        if (a == b) {
            return true;
        }
        if (a == null || b == null || a.length != b.length) {
            return false;
        }
        for (int i = 0; i < a.length; i++) {
            if (a[i] != b[i]) {
                return false;
            }
        }
        return true;
    }

    public static int hashCode(byte[] array) {
        if (array == null) {
            return 0;
        }
        int hash = 1;
        for (int i = 0; i < array.length; i++) {
            hash = 31 * hash + array[i];
        }
        return hash;
    }

    public static String toString(byte[] array) {
        if (array == null) {
            return "null";
        }
        StringBuilder text = new StringBuilder("[");
        for (int i = 0; i < array.length; i++) {
            text.append(i == 0 ? "" : ", ").append(array[i]);
        }
        return text.append(']').toString();
    }

    public static void sort(byte[] array) {
        sort(array, 0, array.length);
    }

    public static void sort(byte[] array, int from, int to) {
        checkRange(array.length, from, to);
        int size = to - from;
        for (int i = (size >>> 1) - 1; i >= 0; i--) {
            sink(array, from, size, i, array[from + i]);
        }
        for (int last = size - 1; last > 0; last--) {
            byte moved = array[from + last];
            array[from + last] = array[from];
            sink(array, from, last, 0, moved);
        }
    }

    /** Puts a value into the heap of this size at a place, or below it where greater ones are. */
    private static void sink(byte[] array, int from, int size, int at, byte value) {
        int child = 2 * at + 1;
        while (child < size) {
            if (child + 1 < size && array[from + child] < array[from + child + 1]) {
                child++;
            }
            if (array[from + child] <= value) {
                break;
            }
            array[from + at] = array[from + child];
            at = child;
            child = 2 * at + 1;
        }
        array[from + at] = value;
    }

    public static int binarySearch(byte[] array, byte key) {
        return binarySearch(array, 0, array.length, key);
    }

    public static int binarySearch(byte[] array, int from, int to, byte key) {
        checkRange(array.length, from, to);
        int low = from;
        int high = to - 1;
        while (low <= high) {
            int middle = low + high >>> 1;
            if (array[middle] == key) {
                return middle;
            }
            if (array[middle] < key) {
                low = middle + 1;
            } else {
                high = middle - 1;
            }
        }
        return -(low + 1);
    }

    // ARRAYS OF BOOLEAN

    public static void fill(boolean[] array, boolean value) {
        fill(array, 0, array.length, value);
    }

    public static void fill(boolean[] array, int from, int to, boolean value) {
        checkRange(array.length, from, to);
        for (int i = from; i < to; i++) {
            array[i] = value;
        }
    }

    public static boolean[] copyOf(boolean[] array, int length) {
        boolean[] copy = new boolean[length];
        int both = Math.min(length, array.length);
        for (int i = 0; i < both; i++) {
            copy[i] = array[i];
        }
        return copy;
    }

    public static boolean[] copyOfRange(boolean[] array, int from, int to) {
        boolean[] copy = new boolean[lengthOf(array.length, from, to)];
        int both = Math.min(copy.length, array.length - from);
        for (int i = 0; i < both; i++) {
            copy[i] = array[from + i];
        }
        return copy;
    }

    public static boolean equals(boolean[] a, boolean[] b) {
        if (a == b) {
            return true;
        }
        if (a == null || b == null || a.length != b.length) {
            return false;
        }
        for (int i = 0; i < a.length; i++) {
            if (a[i] != b[i]) {
                return false;
            }
        }
        return true;
    }

    public static int hashCode(boolean[] array) {
        if (array == null) {
            return 0;
        }
        int hash = 1;
        for (int i = 0; i < array.length; i++) {
            hash = 31 * hash + Boolean.hashCode(array[i]);
        }
        return hash;
    }

    public static String toString(boolean[] array) {
        if (array == null) {
            return "null";
        }
        StringBuilder text = new StringBuilder("[");
        for (int i = 0; i < array.length; i++) {
            text.append(i == 0 ? "" : ", ").append(array[i]);
        }
        return text.append(']').toString();
    }

    // ARRAYS OF REFERENCES

    public static void fill(Object[] array, Object value) {
        fill(array, 0, array.length, value);
    }

    public static void fill(Object[] array, int from, int to, Object value) {
        checkRange(array.length, from, to);
        for (int i = from; i < to; i++) {
            array[i] = value;
        }
    }

    @SuppressWarnings("unchecked")
    public static <T> T[] copyOf(T[] array, int length) {
        if (length < 0) {
            throw new NegativeArraySizeException();
        }
        Object[] copy = Values.arrayLike(array, length);
        ArrayList.copy(array, 0, copy, 0, Math.min(length, array.length));
        return (T[]) copy;
    }

    @SuppressWarnings("unchecked")
    public static <T> T[] copyOfRange(T[] array, int from, int to) {
        Object[] copy = Values.arrayLike(array, lengthOf(array.length, from, to));
        ArrayList.copy(array, from, copy, 0, Math.min(copy.length, array.length - from));
        return (T[]) copy;
    }

    public static boolean equals(Object[] a, Object[] b) {
        if (a == b) {
            return true;
        }
        if (a == null || b == null || a.length != b.length) {
            return false;
        }
        for (int i = 0; i < a.length; i++) {
            if (!Values.same(a[i], b[i])) {
                return false;
            }
        }
        return true;
    }

    public static boolean deepEquals(Object[] a, Object[] b) {
        if (a == b) {
            return true;
        }
        if (a == null || b == null || a.length != b.length) {
            return false;
        }
        for (int i = 0; i < a.length; i++) {
            if (!deepSame(a[i], b[i])) {
                return false;
            }
        }
        return true;
    }

    /** Whether two are equal, arrays by what they hold. */
    static boolean deepSame(Object a, Object b) {
        if (a instanceof Object[] && b instanceof Object[]) {
            return deepEquals((Object[]) a, (Object[]) b);
        }
        if (a instanceof int[] && b instanceof int[]) {
            return equals((int[]) a, (int[]) b);
        }
        if (a instanceof long[] && b instanceof long[]) {
            return equals((long[]) a, (long[]) b);
        }
        if (a instanceof char[] && b instanceof char[]) {
            return equals((char[]) a, (char[]) b);
        }
        if (a instanceof short[] && b instanceof short[]) {
            return equals((short[]) a, (short[]) b);
        }
        if (a instanceof byte[] && b instanceof byte[]) {
            return equals((byte[]) a, (byte[]) b);
        }
        if (a instanceof boolean[] && b instanceof boolean[]) {
            return equals((boolean[]) a, (boolean[]) b);
        }
        return Values.same(a, b);
    }

    public static int hashCode(Object[] array) {
        if (array == null) {
            return 0;
        }
        int hash = 1;
        for (int i = 0; i < array.length; i++) {
            hash = 31 * hash + Values.hash(array[i]);
        }
        return hash;
    }

    public static String toString(Object[] array) {
        if (array == null) {
            return "null";
        }
        StringBuilder text = new StringBuilder("[");
        for (int i = 0; i < array.length; i++) {
            text.append(i == 0 ? "" : ", ").append(Values.text(array[i]));
        }
        return text.append(']').toString();
    }

    public static void sort(Object[] array) {
        sortAll(array, 0, array.length, null);
    }

    public static void sort(Object[] array, int from, int to) {
        sortAll(array, from, to, null);
    }

    public static <T> void sort(T[] array, Comparator<? super T> order) {
        sortAll(array, 0, array.length, order);
    }

    public static <T> void sort(T[] array, int from, int to, Comparator<? super T> order) {
        sortAll(array, from, to, order);
    }

    private static void sortAll(Object[] array, int from, int to, Comparator<?> order) {
        checkRange(array.length, from, to);
        merge(array, from, to, to - from > FEW ? new Object[to - from] : null, order);
    }

    /** Sorts a range, by a spare array that is at least as long where it is no short one. */
    private static void merge(Object[] array, int from, int to, Object[] spare, Comparator<?> order) {
        if (to - from <= FEW) {
            insert(array, from, to, order);
            return;
        }
        int middle = from + to >>> 1;
        merge(array, from, middle, spare, order);
        merge(array, middle, to, spare, order);
        if (Values.compare(order, array[middle - 1], array[middle]) <= 0) {
            return;
        }
        int left = middle - from;
        ArrayList.copy(array, from, spare, 0, left);
        int low = 0;
        int high = middle;
        for (int i = from; low < left; i++) {
            if (high < to && Values.compare(order, array[high], spare[low]) < 0) {
                array[i] = array[high++];
            } else {
                array[i] = spare[low++];
            }
        }
    }

    private static void insert(Object[] array, int from, int to, Comparator<?> order) {
        for (int i = from + 1; i < to; i++) {
            Object moved = array[i];
            int at = i;
            while (at > from && Values.compare(order, array[at - 1], moved) > 0) {
                array[at] = array[at - 1];
                at--;
            }
            array[at] = moved;
        }
    }

    public static int binarySearch(Object[] array, Object key) {
        return search(array, 0, array.length, key, null);
    }

    public static int binarySearch(Object[] array, int from, int to, Object key) {
        return search(array, from, to, key, null);
    }

    public static <T> int binarySearch(T[] array, T key, Comparator<? super T> order) {
        return search(array, 0, array.length, key, order);
    }

    public static <T> int binarySearch(T[] array, int from, int to, T key, Comparator<? super T> order) {
        return search(array, from, to, key, order);
    }

    private static int search(Object[] array, int from, int to, Object key, Comparator<?> order) {
        checkRange(array.length, from, to);
        int low = from;
        int high = to - 1;
        while (low <= high) {
            int middle = low + high >>> 1;
            int comparison = Values.compare(order, array[middle], key);
            if (comparison == 0) {
                return middle;
            }
            if (comparison < 0) {
                low = middle + 1;
            } else {
                high = middle - 1;
            }
        }
        return -(low + 1);
    }

    public static <T> List<T> asList(T... array) {
        return new Listed<T>(array);
    }

    /** An array as a list of its length. */
    static final class Listed<E> extends AbstractList<E> implements RandomAccess, java.io.Serializable {
        final E[] array;

        Listed(E[] array) {
            this.array = Objects.requireNonNull(array);
        }

        @Override
        public int size() {
            return array.length;
        }

        @Override
        public E get(int index) {
            return array[index];
        }

        @Override
        public E set(int index, E element) {
            E old = array[index];
            array[index] = element;
            return old;
        }
    }
}
