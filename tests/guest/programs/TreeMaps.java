import java.util.AbstractMap;
import java.util.Arrays;
import java.util.Collection;
import java.util.Collections;
import java.util.Comparator;
import java.util.ConcurrentModificationException;
import java.util.HashMap;
import java.util.Iterator;
import java.util.Map;
import java.util.NavigableMap;
import java.util.NavigableSet;
import java.util.NoSuchElementException;
import java.util.Set;
import java.util.SortedMap;
import java.util.SortedSet;
import java.util.TreeMap;
import java.util.TreeSet;
import java.util.function.BiFunction;
import java.util.function.Function;

/** TreeMap and TreeSet, their parts and what is gone over downwards. */
public class TreeMaps {
    static long seed = 17;

    static int choose(int bound) {
        seed = seed * 6364136223846793005L + 1442695040888963407L;
        return (int) ((seed >>> 33) % bound);
    }

    static void tell(Integer number) {
        System.out.println(number == null ? -99 : number);
    }

    static void tell(Map.Entry<Integer, Integer> entry) {
        System.out.println(entry == null ? -98 : entry.getKey() * 1000L + (entry.getValue() == null ? 999 : entry.getValue()));
    }

    static void tell(Map<Integer, Integer> map) {
        System.out.println(map.size());
        for (Map.Entry<Integer, Integer> entry : map.entrySet()) {
            tell(entry);
        }
    }

    static void tell(Collection<Integer> all) {
        System.out.println(all.size());
        for (Integer element : all) {
            tell(element);
        }
    }

    static final Comparator<Integer> BY_DIGIT = new Comparator<Integer>() {
        public int compare(Integer a, Integer b) {
            return a % 10 != b % 10 ? a % 10 - b % 10 : a - b;
        }
    };

    public static void main(String[] arguments) {
        exercise(new TreeMap<Integer, Integer>(), 400, 0);
        exercise(new TreeMap<Integer, Integer>(Collections.<Integer>reverseOrder()), 200, 0);
        exercise(new TreeMap<Integer, Integer>(BY_DIGIT), 200, 0);
        TreeMap<Integer, Integer> tree = new TreeMap<Integer, Integer>();
        for (int i = 0; i < 70; i += 3) {
            tree.put(i, i);
        }
        exercise(tree.descendingMap(), 200, 1);
        exercise(tree.subMap(10, true, 50, false), 200, 1);
        exercise(tree.subMap(10, false, 50, true).descendingMap(), 200, 1);
        exercise(tree.headMap(40, true), 100, 1);
        exercise(tree.tailMap(20, false).headMap(60, false).descendingMap().tailMap(50, true), 100, 1);
        tell(tree);
        bulk();
        faults();
        sets();
    }

    static void exercise(NavigableMap<Integer, Integer> map, int steps, int part) {
        for (int step = 0; step < steps; step++) {
            Integer key = choose(70);
            Integer value = choose(9) == 0 ? null : (Integer) choose(100);
            try {
                step(map, key, value, part);
            } catch (IllegalArgumentException e) {
                System.out.println(-11);
            } catch (NoSuchElementException e) {
                System.out.println(-12);
            }
            if (step % 5 == 0) {
                tell(map);
            }
        }
        tell(map);
    }

    static void step(NavigableMap<Integer, Integer> map, Integer key, Integer value, int part) {
        switch (choose(38)) {
            case 0:
            case 1:
            case 2:
            case 3:
            case 4:
            case 5: tell(map.put(key, value)); break;
            case 6:
            case 7: tell(map.remove(key)); break;
            case 8: tell(map.get(key)); break;
            case 9: System.out.println(map.containsKey(key)); break;
            case 10: System.out.println(map.containsValue(value)); break;
            case 11: tell(map.firstKey()); break;
            case 12: tell(map.lastKey()); break;
            case 13: tell(map.firstEntry()); break;
            case 14: tell(map.lastEntry()); break;
            case 15: tell(choose(3) == 0 ? map.pollFirstEntry() : null); break;
            case 16: tell(choose(3) == 0 ? map.pollLastEntry() : null); break;
            case 17: tell(map.lowerKey(key)); break;
            case 18: tell(map.floorKey(key)); break;
            case 19: tell(map.ceilingKey(key)); break;
            case 20: tell(map.higherKey(key)); break;
            case 21: tell(map.lowerEntry(key)); break;
            case 22: tell(map.floorEntry(key)); break;
            case 23: tell(map.ceilingEntry(key)); break;
            case 24: tell(map.higherEntry(key)); break;
            case 25: tell(map.descendingMap()); break;
            case 26: tell(map.keySet()); break;
            case 27: tell(map.navigableKeySet()); break;
            case 28: tell(map.descendingKeySet()); break;
            case 29: tell(map.values()); break;
            case 30:
                tell(map.headMap(key, choose(2) == 0));
                tell(map.headMap(key));
                break;
            case 31:
                tell(map.tailMap(key, choose(2) == 0));
                tell(map.tailMap(key));
                break;
            case 32:
                tell(map.subMap(key, choose(2) == 0, key + choose(9), choose(2) == 0));
                tell(map.subMap(key, key + choose(9)));
                break;
            case 33:
                for (Iterator<Map.Entry<Integer, Integer>> all = map.entrySet().iterator(); all.hasNext(); ) {
                    Map.Entry<Integer, Integer> entry = all.next();
                    if (choose(9) == 0) {
                        all.remove();
                    } else if (choose(9) == 0) {
                        tell(entry.setValue(choose(5)));
                    }
                }
                break;
            case 34:
                System.out.println(((Map<Integer, Integer>) map).hashCode());
                System.out.println(((Map<Integer, Integer>) map).equals(new HashMap<Integer, Integer>(map)));
                System.out.println(map.isEmpty());
                break;
            case 35:
                tell(map.putIfAbsent(key, value));
                break;
            case 36:
                Set<Integer> keys = map.keySet();
                System.out.println(keys.remove(key));
                System.out.println(keys.contains(key));
                System.out.println(map.entrySet().contains(new AbstractMap.SimpleEntry<Integer, Integer>(key, value)));
                System.out.println(map.entrySet().remove(new AbstractMap.SimpleEntry<Integer, Integer>(key + 1, value)));
                System.out.println(map.values().contains(value));
                System.out.println(map.values().remove(value));
                break;
            default:
                if (choose(5) == 0 && part == 1) {
                    map.subMap(key, key + 2).clear();
                } else if (choose(5) == 0) {
                    map.clear();
                }
        }
    }

    static void bulk() {
        TreeMap<Integer, Integer> tree = new TreeMap<Integer, Integer>();
        for (int i = 0; i < 1000; i++) {
            tree.put(i * 7919 % 1009, i);
        }
        for (int i = 0; i < 700; i++) {
            tree.remove(i * 104729 % 1009);
        }
        tell(tree);
        SortedMap<Integer, Integer> down = new TreeMap<Integer, Integer>(Collections.<Integer>reverseOrder());
        down.putAll(tree.headMap(50));
        tell(new TreeMap<Integer, Integer>(down));
        tell(new TreeMap<Integer, Integer>((Map<Integer, Integer>) down));
        System.out.println(down.comparator() == Collections.<Integer>reverseOrder());
        System.out.println(tree.comparator() == null);
        System.out.println(tree.descendingMap().comparator() == Collections.<Integer>reverseOrder());
        System.out.println(tree.headMap(3).comparator() == null);
        computed(new TreeMap<Integer, Integer>());
        computed(new TreeMap<Integer, Integer>(BY_DIGIT).descendingMap());
        Object copy = tree.clone();
        System.out.println(((TreeMap<?, ?>) copy).equals(tree));
        System.out.println(tree.get(Integer.valueOf(3)) == null ? -1 : 1);
        System.out.println(tree.navigableKeySet().first() == tree.firstKey());
        tell(tree.subMap(100, 130).keySet());
        tell(tree.subMap(100, true, 130, true).descendingKeySet());
        System.out.println(tree.subMap(100, 100).isEmpty());
        tell(tree.subMap(100, 200).get(150));
        tell(tree.subMap(100, 200).get(250));
        tell(tree.subMap(100, 200).remove(250));
        System.out.println(tree.subMap(100, 200).containsKey(250));
    }

    static void computed(Map<Integer, Integer> map) {
        BiFunction<Integer, Integer, Integer> sum = new BiFunction<Integer, Integer, Integer>() {
            public Integer apply(Integer a, Integer b) {
                return b == null ? (Integer) 1 : (a + b) % 5 == 0 ? null : (Integer) (a + b);
            }
        };
        Function<Integer, Integer> made = new Function<Integer, Integer>() {
            public Integer apply(Integer key) {
                return key % 3 == 0 ? null : key;
            }
        };
        for (int i = 0; i < 80; i++) {
            Integer key = i * 37 % 24;
            switch (i % 7) {
                case 0: tell(map.computeIfAbsent(key, made)); break;
                case 1: tell(map.computeIfPresent(key, sum)); break;
                case 2: tell(map.compute(key, sum)); break;
                case 3: tell(map.merge(key, 2, sum)); break;
                case 4: tell(map.getOrDefault(key, -4)); break;
                case 5: tell(map.replace(key, i)); break;
                default: System.out.println(map.replace(key, 3, i) | map.remove(key, 1));
            }
            tell(map);
        }
    }

    static void faults() {
        for (int which = 0; which < 18; which++) {
            TreeMap<Integer, Integer> map = new TreeMap<Integer, Integer>();
            for (int i = 0; i < 5; i++) {
                map.put(i, i);
            }
            try {
                fault(map, which);
                System.out.println(0);
            } catch (NullPointerException e) {
                System.out.println(1);
            } catch (IllegalArgumentException e) {
                System.out.println(2);
            } catch (NoSuchElementException e) {
                System.out.println(3);
            } catch (ConcurrentModificationException e) {
                System.out.println(4);
            } catch (ClassCastException e) {
                System.out.println(5);
            } catch (IllegalStateException e) {
                System.out.println(6);
            } catch (UnsupportedOperationException e) {
                System.out.println(7);
            }
        }
    }

    @SuppressWarnings({"unchecked", "rawtypes"})
    static void fault(TreeMap<Integer, Integer> map, int which) {
        Iterator<Integer> keys = map.keySet().iterator();
        switch (which) {
            case 0: map.put(null, 1); break;
            case 1: map.get(null); break;
            case 2: new TreeMap<Integer, Integer>().get(null); break;
            case 3: new TreeMap<Integer, Integer>().put(null, 1); break;
            case 4: new TreeMap<Integer, Integer>().firstKey(); break;
            case 5: new TreeMap<Integer, Integer>().lastKey(); break;
            case 6: map.subMap(3, 2); break;
            case 7: map.subMap(1, 3).put(3, 1); break;
            case 8: map.subMap(1, 3).subMap(0, 2); break;
            case 9: ((Map) map).put(Long.valueOf(3), 1); break;
            case 10: ((Map) new TreeMap<Object, Integer>()).put(new Object(), 1); break;
            case 11:
                map.put(77, 1);
                keys.next();
                break;
            case 12: keys.remove(); break;
            case 13: map.firstEntry().setValue(3); break;
            case 14: map.keySet().add(9); break;
            case 15: map.navigableKeySet().addAll(Arrays.asList(1, 2)); break;
            case 16: map.floorKey(null); break;
            default: map.headMap(null);
        }
    }

    static void sets() {
        NavigableSet<Integer> set = new TreeSet<Integer>();
        for (int step = 0; step < 400; step++) {
            Integer value = choose(60);
            switch (choose(28)) {
                case 0:
                case 1:
                case 2:
                case 3:
                case 4:
                case 5: System.out.println(set.add(value)); break;
                case 6: System.out.println(set.remove(value)); break;
                case 7: System.out.println(set.contains(value)); break;
                case 8: tell(set.lower(value)); break;
                case 9: tell(set.floor(value)); break;
                case 10: tell(set.ceiling(value)); break;
                case 11: tell(set.higher(value)); break;
                case 12: tell(choose(4) == 0 ? set.pollFirst() : null); break;
                case 13: tell(choose(4) == 0 ? set.pollLast() : null); break;
                case 14: tell(set.descendingSet()); break;
                case 15:
                    for (Iterator<Integer> all = set.descendingIterator(); all.hasNext(); ) {
                        tell(all.next());
                    }
                    break;
                case 16: tell(set.headSet(value)); break;
                case 17: tell(set.headSet(value, true)); break;
                case 18: tell(set.tailSet(value)); break;
                case 19: tell(set.tailSet(value, false)); break;
                case 20: tell(set.subSet(value, value + 10)); break;
                case 21: tell(set.subSet(value, false, value + 10, true)); break;
                case 22:
                    try {
                        tell(set.first());
                        tell(set.last());
                    } catch (NoSuchElementException e) {
                        System.out.println(-12);
                    }
                    break;
                case 23: System.out.println(set.addAll(Arrays.asList(value, 3, 4))); break;
                case 24: System.out.println(set.removeAll(Arrays.asList(value, 3))); break;
                case 25:
                    System.out.println(((Set<Integer>) set).hashCode());
                    System.out.println(((Set<Integer>) set).equals(new TreeSet<Integer>((Collection<Integer>) set)));
                    System.out.println(set.isEmpty());
                    break;
                case 26:
                    for (Iterator<Integer> all = set.iterator(); all.hasNext(); ) {
                        all.next();
                        if (choose(7) == 0) {
                            all.remove();
                        }
                    }
                    break;
                default:
                    if (choose(5) == 0) {
                        set.clear();
                    }
            }
            tell(set);
        }
        set.addAll(Arrays.asList(5, 15, 25));
        SortedSet<Integer> down = new TreeSet<Integer>(Collections.<Integer>reverseOrder());
        down.addAll(set);
        tell(new TreeSet<Integer>(down));
        tell(new TreeSet<Integer>((Collection<Integer>) down));
        System.out.println(new TreeSet<Integer>(down).comparator() == Collections.<Integer>reverseOrder());
        System.out.println(((TreeSet<?>) ((TreeSet<Integer>) set).clone()).equals(set));
        tell(new TreeSet<Integer>(BY_DIGIT));
    }
}
