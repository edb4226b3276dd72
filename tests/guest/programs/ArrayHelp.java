import java.util.Arrays;
import java.util.Collections;
import java.util.Comparator;
import java.util.List;

/** Arrays, on arrays of each kind. */
public class ArrayHelp {
    static long seed = 12;

    static int choose(int bound) {
        seed = seed * 6364136223846793005L + 1442695040888963407L;
        return (int) ((seed >>> 33) % bound);
    }

    public static void main(String[] arguments) {
        tryInts();
        tryLongs();
        tryChars();
        tryShorts();
        tryBytes();
        tryBooleans();
        tryReferences();
        copies();
        deep();
    }

    static int[] someInts(int length, int bound) {
        int[] array = new int[length];
        for (int i = 0; i < length; i++) {
            array[i] = (int) (choose(bound) - bound / 3);
        }
        return array;
    }

    static void tell(int[] array) {
        System.out.println(array.length);
        for (int i = 0; i < array.length; i++) {
            System.out.println(array[i]);
        }
    }

    static void tryInts() {
        for (int length = 0; length < 90; length += 11) {
            int[] array = someInts(length, length % 2 == 0 ? 60000 : 20);
            System.out.println(Arrays.hashCode(array));
            int[] same = Arrays.copyOf(array, length);
            System.out.println(Arrays.equals(array, same));
            Arrays.sort(same);
            tell(same);
            System.out.println(Arrays.equals(array, same));
            for (int i = 0; i < 6; i++) {
                int key = (int) (choose(25) - 8);
                int found = Arrays.binarySearch(same, key);
                System.out.println(found < 0 ? found : 1);
                found = Arrays.binarySearch(same, length / 4, length / 2, key);
                System.out.println(found < 0 ? found : 1);
            }
            Arrays.sort(array, length / 3, length - length / 4);
            tell(array);
            tell(Arrays.copyOf(array, length + 2));
            tell(Arrays.copyOf(array, length / 2));
            tell(Arrays.copyOfRange(array, length / 2, length + 3));
            Arrays.fill(array, length / 2, length, (int) 7);
            tell(array);
            Arrays.fill(array, (int) 9);
            tell(array);
        }
        System.out.println(Arrays.equals((int[]) null, new int[0]));
        System.out.println(Arrays.equals((int[]) null, (int[]) null));
        System.out.println(Arrays.hashCode((int[]) null));
        for (int which = 0; which < 9; which++) {
            int[] array = someInts(4, 10);
            try {
                switch (which) {
                    case 0: Arrays.sort(array, 3, 2); break;
                    case 1: Arrays.sort(array, -1, 2); break;
                    case 2: Arrays.sort(array, 1, 5); break;
                    case 3: Arrays.fill(array, 3, 5, (int) 1); break;
                    case 4: Arrays.copyOf(array, -1); break;
                    case 5: Arrays.copyOfRange(array, 5, 6); break;
                    case 6: Arrays.copyOfRange(array, 3, 2); break;
                    case 7: Arrays.binarySearch(array, 2, 9, (int) 1); break;
                    default: Arrays.copyOfRange(array, -1, 2);
                }
                System.out.println(0);
            } catch (ArrayIndexOutOfBoundsException e) {
                System.out.println(1);
            } catch (IllegalArgumentException e) {
                System.out.println(2);
            } catch (NegativeArraySizeException e) {
                System.out.println(3);
            }
        }
    }

    static long[] someLongs(int length, int bound) {
        long[] array = new long[length];
        for (int i = 0; i < length; i++) {
            array[i] = (long) (choose(bound) - bound / 3);
        }
        return array;
    }

    static void tell(long[] array) {
        System.out.println(array.length);
        for (int i = 0; i < array.length; i++) {
            System.out.println(array[i]);
        }
    }

    static void tryLongs() {
        for (int length = 0; length < 90; length += 11) {
            long[] array = someLongs(length, length % 2 == 0 ? 60000 : 20);
            System.out.println(Arrays.hashCode(array));
            long[] same = Arrays.copyOf(array, length);
            System.out.println(Arrays.equals(array, same));
            Arrays.sort(same);
            tell(same);
            System.out.println(Arrays.equals(array, same));
            for (int i = 0; i < 6; i++) {
                long key = (long) (choose(25) - 8);
                int found = Arrays.binarySearch(same, key);
                System.out.println(found < 0 ? found : 1);
                found = Arrays.binarySearch(same, length / 4, length / 2, key);
                System.out.println(found < 0 ? found : 1);
            }
            Arrays.sort(array, length / 3, length - length / 4);
            tell(array);
            tell(Arrays.copyOf(array, length + 2));
            tell(Arrays.copyOf(array, length / 2));
            tell(Arrays.copyOfRange(array, length / 2, length + 3));
            Arrays.fill(array, length / 2, length, (long) 7);
            tell(array);
            Arrays.fill(array, (long) 9);
            tell(array);
        }
        System.out.println(Arrays.equals((long[]) null, new long[0]));
        System.out.println(Arrays.equals((long[]) null, (long[]) null));
        System.out.println(Arrays.hashCode((long[]) null));
        for (int which = 0; which < 9; which++) {
            long[] array = someLongs(4, 10);
            try {
                switch (which) {
                    case 0: Arrays.sort(array, 3, 2); break;
                    case 1: Arrays.sort(array, -1, 2); break;
                    case 2: Arrays.sort(array, 1, 5); break;
                    case 3: Arrays.fill(array, 3, 5, (long) 1); break;
                    case 4: Arrays.copyOf(array, -1); break;
                    case 5: Arrays.copyOfRange(array, 5, 6); break;
                    case 6: Arrays.copyOfRange(array, 3, 2); break;
                    case 7: Arrays.binarySearch(array, 2, 9, (long) 1); break;
                    default: Arrays.copyOfRange(array, -1, 2);
                }
                System.out.println(0);
            } catch (ArrayIndexOutOfBoundsException e) {
                System.out.println(1);
            } catch (IllegalArgumentException e) {
                System.out.println(2);
            } catch (NegativeArraySizeException e) {
                System.out.println(3);
            }
        }
    }

    static char[] someChars(int length, int bound) {
        char[] array = new char[length];
        for (int i = 0; i < length; i++) {
            array[i] = (char) (choose(bound) - bound / 3);
        }
        return array;
    }

    static void tell(char[] array) {
        System.out.println(array.length);
        for (int i = 0; i < array.length; i++) {
            System.out.println((int) array[i]);
        }
    }

    static void tryChars() {
        for (int length = 0; length < 90; length += 11) {
            char[] array = someChars(length, length % 2 == 0 ? 60000 : 20);
            System.out.println(Arrays.hashCode(array));
            char[] same = Arrays.copyOf(array, length);
            System.out.println(Arrays.equals(array, same));
            Arrays.sort(same);
            tell(same);
            System.out.println(Arrays.equals(array, same));
            for (int i = 0; i < 6; i++) {
                char key = (char) (choose(25) - 8);
                int found = Arrays.binarySearch(same, key);
                System.out.println(found < 0 ? found : 1);
                found = Arrays.binarySearch(same, length / 4, length / 2, key);
                System.out.println(found < 0 ? found : 1);
            }
            Arrays.sort(array, length / 3, length - length / 4);
            tell(array);
            tell(Arrays.copyOf(array, length + 2));
            tell(Arrays.copyOf(array, length / 2));
            tell(Arrays.copyOfRange(array, length / 2, length + 3));
            Arrays.fill(array, length / 2, length, (char) 7);
            tell(array);
            Arrays.fill(array, (char) 9);
            tell(array);
        }
        System.out.println(Arrays.equals((char[]) null, new char[0]));
        System.out.println(Arrays.equals((char[]) null, (char[]) null));
        System.out.println(Arrays.hashCode((char[]) null));
        for (int which = 0; which < 9; which++) {
            char[] array = someChars(4, 10);
            try {
                switch (which) {
                    case 0: Arrays.sort(array, 3, 2); break;
                    case 1: Arrays.sort(array, -1, 2); break;
                    case 2: Arrays.sort(array, 1, 5); break;
                    case 3: Arrays.fill(array, 3, 5, (char) 1); break;
                    case 4: Arrays.copyOf(array, -1); break;
                    case 5: Arrays.copyOfRange(array, 5, 6); break;
                    case 6: Arrays.copyOfRange(array, 3, 2); break;
                    case 7: Arrays.binarySearch(array, 2, 9, (char) 1); break;
                    default: Arrays.copyOfRange(array, -1, 2);
                }
                System.out.println(0);
            } catch (ArrayIndexOutOfBoundsException e) {
                System.out.println(1);
            } catch (IllegalArgumentException e) {
                System.out.println(2);
            } catch (NegativeArraySizeException e) {
                System.out.println(3);
            }
        }
    }

    static short[] someShorts(int length, int bound) {
        short[] array = new short[length];
        for (int i = 0; i < length; i++) {
            array[i] = (short) (choose(bound) - bound / 3);
        }
        return array;
    }

    static void tell(short[] array) {
        System.out.println(array.length);
        for (int i = 0; i < array.length; i++) {
            System.out.println(array[i]);
        }
    }

    static void tryShorts() {
        for (int length = 0; length < 90; length += 11) {
            short[] array = someShorts(length, length % 2 == 0 ? 60000 : 20);
            System.out.println(Arrays.hashCode(array));
            short[] same = Arrays.copyOf(array, length);
            System.out.println(Arrays.equals(array, same));
            Arrays.sort(same);
            tell(same);
            System.out.println(Arrays.equals(array, same));
            for (int i = 0; i < 6; i++) {
                short key = (short) (choose(25) - 8);
                int found = Arrays.binarySearch(same, key);
                System.out.println(found < 0 ? found : 1);
                found = Arrays.binarySearch(same, length / 4, length / 2, key);
                System.out.println(found < 0 ? found : 1);
            }
            Arrays.sort(array, length / 3, length - length / 4);
            tell(array);
            tell(Arrays.copyOf(array, length + 2));
            tell(Arrays.copyOf(array, length / 2));
            tell(Arrays.copyOfRange(array, length / 2, length + 3));
            Arrays.fill(array, length / 2, length, (short) 7);
            tell(array);
            Arrays.fill(array, (short) 9);
            tell(array);
        }
        System.out.println(Arrays.equals((short[]) null, new short[0]));
        System.out.println(Arrays.equals((short[]) null, (short[]) null));
        System.out.println(Arrays.hashCode((short[]) null));
        for (int which = 0; which < 9; which++) {
            short[] array = someShorts(4, 10);
            try {
                switch (which) {
                    case 0: Arrays.sort(array, 3, 2); break;
                    case 1: Arrays.sort(array, -1, 2); break;
                    case 2: Arrays.sort(array, 1, 5); break;
                    case 3: Arrays.fill(array, 3, 5, (short) 1); break;
                    case 4: Arrays.copyOf(array, -1); break;
                    case 5: Arrays.copyOfRange(array, 5, 6); break;
                    case 6: Arrays.copyOfRange(array, 3, 2); break;
                    case 7: Arrays.binarySearch(array, 2, 9, (short) 1); break;
                    default: Arrays.copyOfRange(array, -1, 2);
                }
                System.out.println(0);
            } catch (ArrayIndexOutOfBoundsException e) {
                System.out.println(1);
            } catch (IllegalArgumentException e) {
                System.out.println(2);
            } catch (NegativeArraySizeException e) {
                System.out.println(3);
            }
        }
    }

    static byte[] someBytes(int length, int bound) {
        byte[] array = new byte[length];
        for (int i = 0; i < length; i++) {
            array[i] = (byte) (choose(bound) - bound / 3);
        }
        return array;
    }

    static void tell(byte[] array) {
        System.out.println(array.length);
        for (int i = 0; i < array.length; i++) {
            System.out.println(array[i]);
        }
    }

    static void tryBytes() {
        for (int length = 0; length < 90; length += 11) {
            byte[] array = someBytes(length, length % 2 == 0 ? 60000 : 20);
            System.out.println(Arrays.hashCode(array));
            byte[] same = Arrays.copyOf(array, length);
            System.out.println(Arrays.equals(array, same));
            Arrays.sort(same);
            tell(same);
            System.out.println(Arrays.equals(array, same));
            for (int i = 0; i < 6; i++) {
                byte key = (byte) (choose(25) - 8);
                int found = Arrays.binarySearch(same, key);
                System.out.println(found < 0 ? found : 1);
                found = Arrays.binarySearch(same, length / 4, length / 2, key);
                System.out.println(found < 0 ? found : 1);
            }
            Arrays.sort(array, length / 3, length - length / 4);
            tell(array);
            tell(Arrays.copyOf(array, length + 2));
            tell(Arrays.copyOf(array, length / 2));
            tell(Arrays.copyOfRange(array, length / 2, length + 3));
            Arrays.fill(array, length / 2, length, (byte) 7);
            tell(array);
            Arrays.fill(array, (byte) 9);
            tell(array);
        }
        System.out.println(Arrays.equals((byte[]) null, new byte[0]));
        System.out.println(Arrays.equals((byte[]) null, (byte[]) null));
        System.out.println(Arrays.hashCode((byte[]) null));
        for (int which = 0; which < 9; which++) {
            byte[] array = someBytes(4, 10);
            try {
                switch (which) {
                    case 0: Arrays.sort(array, 3, 2); break;
                    case 1: Arrays.sort(array, -1, 2); break;
                    case 2: Arrays.sort(array, 1, 5); break;
                    case 3: Arrays.fill(array, 3, 5, (byte) 1); break;
                    case 4: Arrays.copyOf(array, -1); break;
                    case 5: Arrays.copyOfRange(array, 5, 6); break;
                    case 6: Arrays.copyOfRange(array, 3, 2); break;
                    case 7: Arrays.binarySearch(array, 2, 9, (byte) 1); break;
                    default: Arrays.copyOfRange(array, -1, 2);
                }
                System.out.println(0);
            } catch (ArrayIndexOutOfBoundsException e) {
                System.out.println(1);
            } catch (IllegalArgumentException e) {
                System.out.println(2);
            } catch (NegativeArraySizeException e) {
                System.out.println(3);
            }
        }
    }

    static void tryBooleans() {
        boolean[] array = {true, false, true, true};
        System.out.println(Arrays.hashCode(array));
        System.out.println(Arrays.hashCode((boolean[]) null));
        boolean[] copy = Arrays.copyOf(array, 6);
        System.out.println(Arrays.equals(array, copy));
        System.out.println(Arrays.equals(array, Arrays.copyOf(copy, 4)));
        boolean[] part = Arrays.copyOfRange(array, 1, 3);
        System.out.println(part.length == 2 && !part[0] && part[1]);
        Arrays.fill(array, 1, 3, false);
        System.out.println(Arrays.hashCode(array));
        Arrays.fill(array, true);
        System.out.println(Arrays.hashCode(array));
    }

    static Integer[] boxes(int length, int bound) {
        Integer[] array = new Integer[length];
        for (int i = 0; i < length; i++) {
            array[i] = choose(bound);
        }
        return array;
    }

    static void tell(Object[] array) {
        System.out.println(array.length);
        for (int i = 0; i < array.length; i++) {
            System.out.println(array[i] == null ? -9 : ((Integer) array[i]).intValue());
        }
    }

    /** So that it shows where equal ones keep their order. */
    static final Comparator<Integer> BY_DIGIT = new Comparator<Integer>() {
        public int compare(Integer a, Integer b) {
            return a % 10 - b % 10;
        }
    };

    static void tryReferences() {
        for (int length = 0; length < 120; length += 13) {
            Integer[] array = boxes(length, 500);
            Integer[] sorted = Arrays.copyOf(array, length);
            System.out.println(Arrays.equals(array, sorted));
            System.out.println(Arrays.hashCode(array));
            Arrays.sort(sorted, BY_DIGIT);
            tell(sorted);
            System.out.println(Arrays.binarySearch(sorted, 505, BY_DIGIT) < 0 ? -1 : 1);
            System.out.println(Arrays.binarySearch(sorted, length / 4, length / 2, 505, BY_DIGIT) < 0 ? -1 : 1);
            Arrays.sort(sorted);
            tell(sorted);
            System.out.println(Arrays.binarySearch(sorted, 250) < 0 ? -1 : 1);
            System.out.println(Arrays.binarySearch(sorted, length / 4, length / 2, 250) < 0 ? -1 : 1);
            sorted = Arrays.copyOf(array, length);
            Arrays.sort(sorted, length / 4, length / 2, Collections.<Integer>reverseOrder());
            tell(sorted);
            Arrays.sort(sorted, length / 3, length);
            tell(sorted);
            Arrays.sort(sorted, (Comparator<Integer>) null);
            tell(sorted);
            Arrays.fill(array, length / 2, length, 3);
            tell(array);
            Arrays.fill(array, null);
            tell(array);
            tell(Arrays.copyOfRange(sorted, length / 2, length + 2));
        }
        System.out.println(Arrays.equals(new Object[] {1, null}, new Object[] {1, null}));
        System.out.println(Arrays.equals(new Object[] {1, null}, new Object[] {1, 2}));
        System.out.println(Arrays.equals((Object[]) null, new Object[0]));
        System.out.println(Arrays.hashCode((Object[]) null));
        List<Integer> list = Arrays.asList(1, 2, 3);
        System.out.println(list.size());
        for (int which = 0; which < 6; which++) {
            Object[] array = boxes(4, 9);
            try {
                switch (which) {
                    case 0: Arrays.sort(array, 3, 1); break;
                    case 1: Arrays.sort(array, 2, 5); break;
                    case 2: Arrays.copyOf(array, -2); break;
                    case 3: Arrays.copyOfRange(array, 5, 7); break;
                    case 4: Arrays.asList((Object[]) null); break;
                    default: Arrays.sort(new Object[] {1, null});
                }
                System.out.println(0);
            } catch (ArrayIndexOutOfBoundsException e) {
                System.out.println(1);
            } catch (IllegalArgumentException e) {
                System.out.println(2);
            } catch (NegativeArraySizeException e) {
                System.out.println(3);
            } catch (NullPointerException e) {
                System.out.println(4);
            }
        }
    }

    /** Copies have the class of the array. */
    static void copies() {
        Long[] longs = Arrays.copyOf(new Long[] {1L}, 2);
        Short[] shorts = Arrays.copyOf(new Short[] {1}, 2);
        Byte[] bytes = Arrays.copyOf(new Byte[] {1}, 2);
        Character[] characters = Arrays.copyOf(new Character[] {1}, 2);
        Boolean[] truths = Arrays.copyOf(new Boolean[] {true}, 2);
        String[] texts = Arrays.copyOf(new String[] {"a"}, 2);
        int[][] ints = Arrays.copyOf(new int[][] {{1}}, 2);
        long[][] rows = Arrays.copyOf(new long[][] {{1}}, 2);
        short[][] shortRows = Arrays.copyOf(new short[][] {{1}}, 2);
        byte[][] byteRows = Arrays.copyOf(new byte[][] {{1}}, 2);
        char[][] charRows = Arrays.copyOf(new char[][] {{1}}, 2);
        boolean[][] truthRows = Arrays.copyOf(new boolean[][] {{true}}, 2);
        Object[] objects = Arrays.copyOf(new Object[] {"a", 1}, 3);
        System.out.println(longs.length + shorts.length + bytes.length + characters.length + truths.length + texts.length
            + ints.length + rows.length + shortRows.length + byteRows.length + charRows.length + truthRows.length + objects.length);
        System.out.println(texts[0] == "a" && texts[1] == null && ints[0][0] == 1 && ints[1] == null && objects[1] == objects[1]);
    }

    static void deep() {
        Object[] a = {1, new int[] {1, 2}, new Object[] {new long[] {3}, null}, new char[] {'c'}, new short[] {4}, new byte[] {5}, new boolean[] {true}};
        Object[] b = {1, new int[] {1, 2}, new Object[] {new long[] {3}, null}, new char[] {'c'}, new short[] {4}, new byte[] {5}, new boolean[] {true}};
        System.out.println(Arrays.equals(new Object[] {a[0]}, new Object[] {b[0]}));
        System.out.println(Arrays.deepEquals(a, b));
        System.out.println(java.util.Objects.deepEquals(a, b));
        ((long[]) ((Object[]) b[2])[0])[0] = 9;
        System.out.println(Arrays.deepEquals(a, b));
        System.out.println(Arrays.deepEquals(a, null));
        System.out.println(Arrays.deepEquals(null, null));
        System.out.println(java.util.Objects.deepEquals(1, 1));
    }
}
