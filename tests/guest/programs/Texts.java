import java.util.AbstractMap;
import java.util.ArrayDeque;
import java.util.ArrayList;
import java.util.Arrays;
import java.util.Collections;
import java.util.HashMap;
import java.util.LinkedHashMap;
import java.util.List;
import java.util.Map;
import java.util.Objects;
import java.util.TreeMap;
import java.util.TreeSet;

/** What makes and reads texts, and texts as elements and keys. */
public class Texts {
    static final long[] LONGS = {0, 1, -1, 9, 10, 255, -128, 127, 32767, -32768, 65535, 0x7fffffffL, -0x80000000L, 0x80000000L, 1234567890123L,
        Long.MAX_VALUE, Long.MIN_VALUE, Long.MIN_VALUE + 1};
    static final String[] NUMBERS = {"0", "1", "-1", "+1", "007", "-0", "127", "128", "-128", "-129", "32767", "32768", "-32768", "-32769", "2147483647",
        "2147483648", "-2147483648", "-2147483649", "4294967295", "4294967296", "9223372036854775807", "9223372036854775808",
        "-9223372036854775808", "-9223372036854775809", "99999999999999999999", "", "+", "-", "--1", "1-", " 1", "1 ", "z", "Zz", "0x10", "0X1f",
        "-0x10", "#ff", "-#ff", "010", "-010", "08", "0x", "#", "0x-1", "+-1", "1_000", "1.5", "+0x7f", "0x80000000", "-0x80000000"};

    public static void main(String[] arguments) {
        for (int i = 0; i < LONGS.length; i++) {
            printed(LONGS[i]);
        }
        for (int i = 0; i < NUMBERS.length; i++) {
            for (int which = 0; which < 24; which++) {
                try {
                    System.out.println(read(NUMBERS[i], which));
                } catch (NumberFormatException e) {
                    System.out.println(-77);
                }
            }
        }
        for (int which = 0; which < 17; which++) {
            try {
                System.out.println(read(null, which));
            } catch (NumberFormatException e) {
                System.out.println(-78);
            } catch (NullPointerException e) {
                System.out.println(-79);
            }
        }
        truths();
        collections();
        keys();
    }

    static void printed(long a) {
        System.out.println(Long.toString(a));
        System.out.println(Long.valueOf(a).toString());
        System.out.println(Long.toHexString(a));
        System.out.println(Long.toOctalString(a));
        System.out.println(Long.toBinaryString(a));
        System.out.println(Integer.toString((int) a));
        System.out.println(Integer.valueOf((int) a).toString());
        System.out.println(Integer.toHexString((int) a));
        System.out.println(Integer.toOctalString((int) a));
        System.out.println(Integer.toBinaryString((int) a));
        System.out.println(Integer.toUnsignedString((int) a));
        System.out.println(Integer.toUnsignedString((int) a, 16));
        System.out.println(Short.toString((short) a));
        System.out.println(Short.valueOf((short) a).toString());
        System.out.println(Byte.toString((byte) a));
        System.out.println(Byte.valueOf((byte) a).toString());
        System.out.println(Character.toString((char) a));
        System.out.println(Character.valueOf((char) a).toString());
        for (int radix = 0; radix < 40; radix += 7) {
            System.out.println(Long.toString(a, radix));
            System.out.println(Integer.toString((int) a, radix));
        }
    }

    static long read(String text, int which) {
        switch (which) {
            case 0: return Integer.parseInt(text);
            case 1: return Integer.parseInt(text, 16);
            case 2: return Integer.parseInt(text, 36);
            case 3: return Integer.parseInt(text, 1);
            case 4: return Integer.parseUnsignedInt(text);
            case 5: return Integer.parseUnsignedInt(text, 8);
            case 6: return Integer.valueOf(text).intValue();
            case 7: return Integer.valueOf(text, 3).intValue();
            case 8: return new Integer(text).intValue();
            case 9: return Long.parseLong(text);
            case 10: return Long.parseLong(text, 36);
            case 11: return Long.valueOf(text).longValue();
            case 12: return Long.valueOf(text, 2).longValue();
            case 13: return new Long(text).longValue();
            case 14: return Short.parseShort(text) + 100000 * Short.parseShort(text, 12);
            case 15: return Short.valueOf(text).shortValue() + 100000 * Short.valueOf(text, 12).shortValue() + new Short(text).shortValue();
            case 16: return Byte.parseByte(text) + 1000 * Byte.parseByte(text, 12);
            case 17: return Byte.valueOf(text).byteValue() + 1000 * Byte.valueOf(text, 12).byteValue() + new Byte(text).byteValue();
            case 18: return Integer.decode(text).intValue();
            case 19: return Long.decode(text).longValue();
            case 20: return Short.decode(text).shortValue();
            case 21: return Byte.decode(text).byteValue();
            case 22: return Long.parseLong(text, 40);
            default: return Integer.parseInt(text, 10);
        }
    }

    static void truths() {
        String[] texts = {"true", "TRUE", "tRuE", "false", "", "truex", "tru", null};
        for (int i = 0; i < texts.length; i++) {
            System.out.println(Boolean.parseBoolean(texts[i]));
            System.out.println(Boolean.valueOf(texts[i]).booleanValue());
            System.out.println(new Boolean(texts[i]).booleanValue());
        }
        System.out.println(Boolean.valueOf(true).toString());
    }

    static void collections() {
        ArrayList<Object> list = new ArrayList<Object>();
        System.out.println(list.toString());
        list.add(Integer.valueOf(1));
        list.add("two");
        list.add(null);
        list.add(Long.valueOf(-4));
        list.add(Short.valueOf((short) 5));
        list.add(Byte.valueOf((byte) 6));
        list.add(Boolean.valueOf(true));
        list.add(Character.valueOf('c'));
        System.out.println(list.toString());
        System.out.println(Objects.toString(list));
        System.out.println(Objects.toString(null));
        Map<Object, Object> map = new LinkedHashMap<Object, Object>();
        map.put("key", list);
        map.put(Integer.valueOf(2), map);
        System.out.println(((LinkedHashMap<?, ?>) map).toString());
        list.add(new AbstractMap.SimpleEntry<Object, Object>("a", "b"));
        list.add(new HashMap<Object, Object>());
        list.add(new ArrayDeque<Object>());
        list.add(list);
        System.out.println(list.toString());
        System.out.println(new AbstractMap.SimpleImmutableEntry<Object, Object>("a", null).toString());
        System.out.println(Objects.toString(Collections.synchronizedList(list.subList(0, 3))));
        System.out.println(Objects.toString(Collections.synchronizedMap(new HashMap<Object, Object>())));
        System.out.println(Arrays.toString(new int[] {1, -2}));
        System.out.println(Arrays.toString(new long[] {1, -2}));
        System.out.println(Arrays.toString(new short[] {1, -2}));
        System.out.println(Arrays.toString(new byte[] {}));
        System.out.println(Arrays.toString(new char[] {'a', 'b'}));
        System.out.println(Arrays.toString(new boolean[] {true, false}));
        System.out.println(Arrays.toString(new Object[] {"x", null}));
        System.out.println(Arrays.toString((int[]) null));
        System.out.println(Arrays.toString((long[]) null));
        System.out.println(Arrays.toString((short[]) null));
        System.out.println(Arrays.toString((byte[]) null));
        System.out.println(Arrays.toString((char[]) null));
        System.out.println(Arrays.toString((boolean[]) null));
        System.out.println(Arrays.toString((Object[]) null));
    }

    static String word(int i) {
        return new StringBuilder().append((char) ('a' + i * 7 % 26)).append(i % 5).append("x").append(i % 2 == 0 ? "" : "yz").toString();
    }

    /** Texts that are equal and not one object. */
    static void keys() {
        Map<String, Integer> hashed = new HashMap<String, Integer>();
        TreeMap<String, Integer> sorted = new TreeMap<String, Integer>();
        List<String> list = new ArrayList<String>();
        for (int i = 0; i < 60; i++) {
            hashed.put(word(i * i), Integer.valueOf(i));
            sorted.put(word(i * i), Integer.valueOf(i));
            list.add(word(i * i));
        }
        System.out.println(((HashMap<?, ?>) hashed).toString());
        System.out.println(sorted.toString());
        System.out.println(new TreeSet<String>(list).toString());
        System.out.println(list.indexOf(word(9)));
        System.out.println(hashed.get(word(9)).intValue() + 100 * sorted.get(word(9)).intValue());
        System.out.println(Objects.hash(word(3), "a"));
        Collections.sort(list);
        System.out.println(((ArrayList<?>) list).toString());
        System.out.println(Collections.binarySearch(list, word(4)) < 0 ? -1 : 1);
        System.out.println(Collections.frequency(list, word(4)));
        System.out.println(Collections.max(list));
    }
}
