import elephant.Value;
import java.util.AbstractMap;
import java.util.ArrayList;
import java.util.Arrays;
import java.util.Collection;
import java.util.Collections;
import java.util.ConcurrentModificationException;
import java.util.HashMap;
import java.util.HashSet;
import java.util.Iterator;
import java.util.LinkedHashMap;
import java.util.LinkedHashSet;
import java.util.List;
import java.util.Map;
import java.util.NoSuchElementException;
import java.util.Set;
import java.util.TreeMap;
import java.util.function.BiConsumer;
import java.util.function.BiFunction;
import java.util.function.Function;

/** HashMap, LinkedHashMap, HashSet and LinkedHashSet, with keys of each kind, in the order of their walks. */
public class HashMaps {
    static long seed = 4;

    static int choose(int bound) {
        seed = seed * 6364136223846793005L + 1442695040888963407L;
        return (int) ((seed >>> 33) % bound);
    }

    /** A key whose hash code is a bad one. */
    static final class Key implements Value, Comparable<Key> {
        final int number;

        Key(int number) {
            this.number = number;
        }

        public boolean equals(Object other) {
            return other instanceof Key && ((Key) other).number == number;
        }

        public int hashCode() {
            return number % 5 * 65536 + number % 3;
        }

        public String toString() {
            return "key";
        }

        public int compareTo(Key other) {
            return Integer.compare(number, other.number);
        }
    }

    static long show(Object value) {
        if (value == null) {
            return -99;
        }
        if (value instanceof Integer) {
            return ((Integer) value).intValue();
        }
        if (value instanceof Long) {
            return ((Long) value).longValue();
        }
        if (value instanceof Character) {
            return ((Character) value).charValue();
        }
        if (value instanceof Short) {
            return ((Short) value).shortValue();
        }
        if (value instanceof Byte) {
            return ((Byte) value).byteValue();
        }
        if (value instanceof Boolean) {
            return ((Boolean) value).booleanValue() ? 1 : 0;
        }
        if (value instanceof Key) {
            return ((Key) value).number;
        }
        if (value instanceof List) {
            return ((List<?>) value).hashCode();
        }
        if (value instanceof Map.Entry) {
            return ((Map.Entry<?, ?>) value).hashCode();
        }
        return -98;
    }

    static Object key(int kind) {
        int number = choose(40);
        if (choose(30) == 0) {
            return null;
        }
        switch (kind) {
            case 0: return number;
            case 1: return (number - 20) * 1000003L * 4096;
            case 2: return (char) (number * 77);
            case 3: return (short) (number * 500);
            case 4: return (byte) number;
            case 5: return number % 2 == 0;
            case 6: return new Key(number % 12);
            case 7: return Arrays.asList(number % 7, number % 3);
            case 8: return number * 0x9e3779b1;
            default: return new AbstractMap.SimpleEntry<Integer, Integer>(number % 6, 3);
        }
    }

    public static void main(String[] arguments) {
        for (int kind = 0; kind < 10; kind++) {
            exercise(new HashMap<Object, Integer>(), kind, 150);
            exercise(new LinkedHashMap<Object, Integer>(), kind, 60);
            exercise(new HashMap<Object, Integer>(kind), kind, 60);
        }
        for (int kind = 0; kind < 3; kind++) {
            exercise(Collections.synchronizedMap(new HashMap<Object, Integer>()), kind, 150);
        }
        views(Collections.synchronizedMap(new LinkedHashMap<Integer, Integer>()));
        sizes();
        computed();
        collisions();
        views(new HashMap<Integer, Integer>());
        views(new LinkedHashMap<Integer, Integer>());
        entries();
        faults();
        eldest();
        sets();
    }

    static void tell(Map<?, ?> map) {
        System.out.println(map.size());
        for (Map.Entry<?, ?> entry : map.entrySet()) {
            System.out.println(show(entry.getKey()));
            System.out.println(show(entry.getValue()));
        }
    }

    static void tell(Collection<?> all) {
        System.out.println(all.size());
        for (Object element : all) {
            System.out.println(show(element));
        }
    }

    static final BiFunction<Object, Integer, Integer> NEXT = new BiFunction<Object, Integer, Integer>() {
        public Integer apply(Object key, Integer value) {
            return value == null ? (Integer) 1 : value % 7 == 0 ? null : (Integer) (value + 1);
        }
    };
    static final BiFunction<Integer, Integer, Integer> SUM = new BiFunction<Integer, Integer, Integer>() {
        public Integer apply(Integer a, Integer b) {
            return (a + b) % 11 == 0 ? null : (Integer) (a + b);
        }
    };
    static final Function<Object, Integer> MADE = new Function<Object, Integer>() {
        public Integer apply(Object key) {
            return key == null ? null : (Integer) 5;
        }
    };

    static void exercise(Map<Object, Integer> map, int kind, int steps) {
        for (int step = 0; step < steps; step++) {
            Object key = key(kind);
            Integer value = choose(9) == 0 ? null : (Integer) choose(100);
            switch (choose(22)) {
                case 0:
                case 1:
                case 2:
                case 3:
                case 4:
                    System.out.println(show(map.put(key, value)));
                    break;
                case 5: System.out.println(show(map.get(key))); break;
                case 6: System.out.println(show(map.remove(key))); break;
                case 7: System.out.println(map.containsKey(key)); break;
                case 8: System.out.println(map.containsValue(value)); break;
                case 9: System.out.println(show(map.getOrDefault(key, -5))); break;
                case 10: System.out.println(show(map.putIfAbsent(key, value))); break;
                case 11: System.out.println(show(map.computeIfAbsent(key, MADE))); break;
                case 12: System.out.println(show(map.computeIfPresent(key, NEXT))); break;
                case 13: System.out.println(show(map.compute(key, NEXT))); break;
                case 14: System.out.println(show(map.merge(key, 3, SUM))); break;
                case 15: System.out.println(map.remove(key, value)); break;
                case 16: System.out.println(map.replace(key, value, 8)); break;
                case 17: System.out.println(show(map.replace(key, 12))); break;
                case 18:
                    Map<Object, Integer> copy = new HashMap<Object, Integer>(map);
                    System.out.println(map.hashCode());
                    System.out.println(map.equals(copy));
                    copy.put(-1, 1);
                    System.out.println(map.equals(copy));
                    tell(copy);
                    break;
                case 19:
                    Iterator<Map.Entry<Object, Integer>> all = map.entrySet().iterator();
                    while (all.hasNext()) {
                        Map.Entry<Object, Integer> entry = all.next();
                        if (choose(5) == 0) {
                            all.remove();
                        } else if (choose(5) == 0) {
                            System.out.println(show(entry.setValue(choose(4))));
                        }
                    }
                    break;
                case 20:
                    if (choose(7) == 0) {
                        map.clear();
                    }
                    System.out.println(map.isEmpty());
                    break;
                default:
                    Map<Object, Integer> more = new HashMap<Object, Integer>();
                    for (int i = choose(30); i > 0; i--) {
                        more.put(key(kind), i);
                    }
                    map.putAll(more);
            }
            if (step % 4 == 0) {
                tell(map);
            }
        }
        tell(map);
    }

    /** Tables of each first size, and what makes them grow. */
    static void sizes() {
        for (int capacity = 0; capacity < 70; capacity += 3) {
            Map<Integer, Integer> map = new HashMap<Integer, Integer>(capacity);
            Set<Integer> set = new HashSet<Integer>(capacity);
            for (int i = 0; i < capacity + 2 + capacity % 2; i++) {
                map.put(i * 48271, i);
                set.add(i * 69621);
            }
            tell(map);
            tell(set);
            tell(new HashMap<Integer, Integer>(map));
            tell(new HashSet<Integer>(set));
            tell(new HashSet<Integer>(new ArrayList<Integer>(set)));
            tell((Map<?, ?>) ((HashMap<?, ?>) map).clone());
            tell((Set<?>) ((HashSet<?>) set).clone());
            Map<Integer, Integer> other = new HashMap<Integer, Integer>();
            other.put(7, 7);
            other.putAll(map);
            tell(other);
        }
    }

    /** What computes a value puts new keys elsewhere in a bin than put does. */
    static void computed() {
        Map<Object, Integer> map = new HashMap<Object, Integer>();
        for (int i = 0; i < 60; i++) {
            Object key = i * 16 % 208;
            if (i % 4 == 0) {
                map.put(key, i);
            } else if (i % 4 == 1) {
                map.computeIfAbsent(key, MADE);
            } else if (i % 4 == 2) {
                map.merge(key, i, SUM);
            } else {
                map.compute(key, NEXT);
            }
            tell(map);
        }
    }

    /** Long bins: below 64 bins they make the table grow. */
    static void collisions() {
        Map<Integer, Integer> map = new HashMap<Integer, Integer>();
        for (int i = 0; i < 9; i++) {
            map.put(i * 256, i);
            map.put(i + 1, i);
            tell(map);
        }
        Map<Object, Integer> made = new HashMap<Object, Integer>();
        for (int i = 0; i < 9; i++) {
            made.computeIfAbsent(i * 256, MADE);
            tell(made);
        }
    }

    static void views(Map<Integer, Integer> map) {
        for (int i = 0; i < 20; i++) {
            map.put(i * 37 % 50, i % 6);
        }
        Set<Integer> keys = map.keySet();
        Collection<Integer> values = map.values();
        Set<Map.Entry<Integer, Integer>> entries = map.entrySet();
        tell(keys);
        tell(values);
        System.out.println(keys == map.keySet());
        System.out.println(keys.remove(37));
        System.out.println(keys.remove(1000));
        System.out.println(values.remove(3));
        System.out.println(entries.remove(new AbstractMap.SimpleEntry<Integer, Integer>(0, 0)));
        System.out.println(entries.remove(new AbstractMap.SimpleEntry<Integer, Integer>(24, 9)));
        System.out.println(entries.remove(Integer.valueOf(3)));
        System.out.println(entries.contains(new AbstractMap.SimpleImmutableEntry<Integer, Integer>(11, 3)));
        System.out.println(entries.contains(Integer.valueOf(3)));
        System.out.println(keys.contains(11));
        System.out.println(values.contains(4));
        System.out.println(keys.removeAll(Arrays.asList(11, 48, 1000)));
        System.out.println(values.retainAll(Arrays.asList(1, 2, 4, 5)));
        System.out.println(keys.size() + 100 * values.size() + 10000 * entries.size());
        System.out.println(keys.hashCode());
        System.out.println(entries.hashCode());
        System.out.println(keys.equals(new HashSet<Integer>(keys)));
        System.out.println(entries.equals(new HashSet<Map.Entry<Integer, Integer>>(entries)));
        System.out.println(keys.toArray().length + keys.toArray(new Integer[0]).length);
        Iterator<Integer> all = keys.iterator();
        all.next();
        all.remove();
        all = values.iterator();
        all.next();
        all.remove();
        tell(map);
        try {
            keys.add(1);
        } catch (UnsupportedOperationException e) {
            System.out.println(51);
        }
        try {
            values.add(1);
        } catch (UnsupportedOperationException e) {
            System.out.println(52);
        }
        final long[] sum = new long[1];
        map.forEach(new BiConsumer<Integer, Integer>() {
            public void accept(Integer key, Integer value) {
                sum[0] = sum[0] * 31 + key * 7 + value;
            }
        });
        System.out.println(sum[0]);
        map.replaceAll(new BiFunction<Integer, Integer, Integer>() {
            public Integer apply(Integer key, Integer value) {
                return key - value;
            }
        });
        tell(map);
        values.clear();
        System.out.println(keys.isEmpty());
        map.put(1, 1);
        keys.clear();
        map.put(2, 2);
        entries.clear();
        System.out.println(map.isEmpty());
    }

    static void entries() {
        AbstractMap.SimpleEntry<Integer, Integer> entry = new AbstractMap.SimpleEntry<Integer, Integer>(1, 2);
        System.out.println(entry.setValue(5).intValue());
        Map.Entry<Integer, Integer> same = new AbstractMap.SimpleEntry<Integer, Integer>(entry);
        Map.Entry<Integer, Integer> fixed = new AbstractMap.SimpleImmutableEntry<Integer, Integer>(same);
        System.out.println(fixed.equals(same) && entry.equals(fixed));
        System.out.println(entry.equals(Integer.valueOf(1)));
        System.out.println(fixed.getKey() * 100 + fixed.getValue() + fixed.hashCode());
        try {
            fixed.setValue(1);
        } catch (UnsupportedOperationException e) {
            System.out.println(61);
        }
    }

    static void faults() {
        for (int which = 0; which < 11; which++) {
            Map<Integer, Integer> map = choose(2) == 0 ? new HashMap<Integer, Integer>() : new LinkedHashMap<Integer, Integer>();
            map.put(1, 1);
            map.put(2, 2);
            map.put(3, null);
            try {
                fault(map, which);
                System.out.println(0);
            } catch (ConcurrentModificationException e) {
                System.out.println(1);
            } catch (NoSuchElementException e) {
                System.out.println(2);
            } catch (IllegalStateException e) {
                System.out.println(3);
            } catch (IllegalArgumentException e) {
                System.out.println(4);
            } catch (NullPointerException e) {
                System.out.println(5);
            }
            tell(map);
        }
    }

    static void fault(final Map<Integer, Integer> map, int which) {
        Iterator<Map.Entry<Integer, Integer>> all = map.entrySet().iterator();
        switch (which) {
            case 0:
                map.put(9, 9);
                all.next();
                break;
            case 1:
                all.next();
                all.next();
                all.next();
                all.next();
                break;
            case 2: all.remove(); break;
            case 3:
                all.next();
                map.remove(1);
                all.remove();
                break;
            case 4: new HashMap<Integer, Integer>(-1); break;
            case 5: map.merge(1, null, new BiFunction<Integer, Integer, Integer>() {
                public Integer apply(Integer a, Integer b) {
                    return a;
                }
            }); break;
            case 6: map.computeIfAbsent(3, null); break;
            case 7:
                map.computeIfAbsent(8, new Function<Integer, Integer>() {
                    public Integer apply(Integer key) {
                        map.put(10, 10);
                        return 1;
                    }
                });
                break;
            case 8:
                map.forEach(new BiConsumer<Integer, Integer>() {
                    public void accept(Integer key, Integer value) {
                        if (map.size() < 20) {
                            map.put(key + 10, 1);
                        }
                    }
                });
                break;
            case 9:
                map.compute(1, new BiFunction<Integer, Integer, Integer>() {
                    public Integer apply(Integer key, Integer value) {
                        map.remove(2);
                        return 3;
                    }
                });
                break;
            default:
                map.put(1, 4);
                all.next();
        }
    }

    /** Keeps the last four. */
    static final class Last extends LinkedHashMap<Integer, Integer> {
        protected boolean removeEldestEntry(Map.Entry<Integer, Integer> eldest) {
            return size() > 4;
        }
    }

    static void eldest() {
        Map<Integer, Integer> map = new Last();
        for (int i = 0; i < 12; i++) {
            map.put(i * 5 % 9, i);
            tell(map);
        }
        map.merge(100, 1, SUM);
        map.computeIfAbsent(101, new Function<Integer, Integer>() {
            public Integer apply(Integer key) {
                return key;
            }
        });
        tell(map);
        LinkedHashMap<Integer, Integer> copy = new LinkedHashMap<Integer, Integer>(map);
        copy.put(1, 1);
        copy.remove(100);
        tell(copy);
        tell((Map<?, ?>) copy.clone());
        copy.clear();
        copy.put(3, 3);
        tell(copy);
        tell(new LinkedHashMap<Integer, Integer>(2));
    }

    static void sets() {
        for (int round = 0; round < 6; round++) {
            Set<Integer> set = round == 4 ? Collections.synchronizedSet(new HashSet<Integer>())
                : round == 5 ? Collections.newSetFromMap(new LinkedHashMap<Integer, Boolean>()) : round == 0 ? new HashSet<Integer>() : round == 1 ? new LinkedHashSet<Integer>()
                : round == 2 ? new LinkedHashSet<Integer>(3) : new LinkedHashSet<Integer>(Arrays.asList(900, 3, 77, 3));
            for (int step = 0; step < 120; step++) {
                Integer value = choose(20) == 0 ? null : (Integer) (choose(40) * 31);
                switch (choose(12)) {
                    case 0:
                    case 1:
                    case 2:
                    case 3: System.out.println(set.add(value)); break;
                    case 4: System.out.println(set.remove(value)); break;
                    case 5: System.out.println(set.contains(value)); break;
                    case 6: System.out.println(set.addAll(Arrays.asList(value, 31, 62))); break;
                    case 7: System.out.println(set.removeAll(Arrays.asList(value, 31))); break;
                    case 8: System.out.println(set.removeAll(new HashSet<Integer>(Arrays.asList(1, 2, 3, 4, 31, 5, 6, 7, 8, 9, 10)))); break;
                    case 9:
                        System.out.println(set.hashCode());
                        System.out.println(set.equals(new LinkedHashSet<Integer>(set)));
                        System.out.println(set.equals(Arrays.asList(1)));
                        System.out.println(set.containsAll(Arrays.asList(value, 31)));
                        break;
                    case 10:
                        if (choose(6) == 0) {
                            set.clear();
                        }
                        System.out.println(set.isEmpty());
                        break;
                    default:
                        for (Iterator<Integer> all = set.iterator(); all.hasNext(); ) {
                            all.next();
                            if (choose(3) == 0) {
                                all.remove();
                            }
                        }
                }
                tell(set);
            }
            if (round < 4) {
                tell((Set<?>) ((HashSet<?>) set).clone());
            }
        }
        tell((Set<?>) new LinkedHashSet<Integer>(Arrays.asList(4, 2, 9)).clone());
        tell(new TreeMap<Integer, Integer>(Collections.<Integer, Integer>emptyMap()));
    }
}
