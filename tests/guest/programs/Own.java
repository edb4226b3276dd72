import java.util.AbstractCollection;
import java.util.AbstractMap;
import java.util.AbstractSet;
import java.util.ArrayList;
import java.util.Arrays;
import java.util.Collection;
import java.util.ConcurrentModificationException;
import java.util.HashMap;
import java.util.HashSet;
import java.util.Iterator;
import java.util.List;
import java.util.Map;
import java.util.NoSuchElementException;
import java.util.Set;
import java.util.function.BiConsumer;
import java.util.function.BiFunction;
import java.util.function.Consumer;
import java.util.function.Function;
import java.util.function.Predicate;

/** A program's own classes below the abstract ones, with what they inherit; default methods of Map; the exceptions. */
public class Own {
    /** A bag in an array, which can be gone over and made smaller. */
    static final class Bag extends AbstractCollection<Integer> {
        Integer[] all;
        int size;

        Bag(Integer... all) {
            this.all = all;
            this.size = all.length;
        }

        public int size() {
            return size;
        }

        public Iterator<Integer> iterator() {
            return new Iterator<Integer>() {
                int next = 0;

                public boolean hasNext() {
                    return next < size;
                }

                public Integer next() {
                    if (next >= size) {
                        throw new NoSuchElementException();
                    }
                    return all[next++];
                }

                public void remove() {
                    size--;
                    next--;
                    for (int i = next; i < size; i++) {
                        all[i] = all[i + 1];
                    }
                }
            };
        }
    }

    /** A map that is a list of entries. */
    static final class Listed extends AbstractMap<Integer, Integer> {
        final ArrayList<Map.Entry<Integer, Integer>> list = new ArrayList<Map.Entry<Integer, Integer>>();

        public Integer put(Integer key, Integer value) {
            for (Map.Entry<Integer, Integer> entry : list) {
                if (entry.getKey().equals(key)) {
                    return entry.setValue(value);
                }
            }
            list.add(new AbstractMap.SimpleEntry<Integer, Integer>(key, value));
            return null;
        }

        public Set<Map.Entry<Integer, Integer>> entrySet() {
            return new AbstractSet<Map.Entry<Integer, Integer>>() {
                public int size() {
                    return list.size();
                }

                public Iterator<Map.Entry<Integer, Integer>> iterator() {
                    return list.iterator();
                }
            };
        }
    }

    static void tell(Collection<Integer> all) {
        System.out.println(all.size());
        for (Integer element : all) {
            System.out.println(element == null ? -9 : element);
        }
    }

    public static void main(String[] arguments) {
        bag();
        map();
        defaults();
        exceptions();
    }

    static void bag() {
        Bag bag = new Bag(1, 2, 3, 2, null, 4);
        System.out.println(bag.contains(3) && bag.contains(null));
        System.out.println(bag.contains(9));
        System.out.println(bag.containsAll(Arrays.asList(1, 4)));
        System.out.println(bag.remove(2));
        tell(bag);
        System.out.println(bag.removeAll(Arrays.asList(null, 1)));
        tell(bag);
        System.out.println(bag.retainAll(Arrays.asList(2, 3)));
        tell(bag);
        System.out.println(bag.toArray().length + 10 * bag.toArray(new Integer[5]).length + 100 * bag.toArray(new Integer[0]).length);
        System.out.println(bag.isEmpty());
        final long[] sum = new long[1];
        bag.forEach(new Consumer<Integer>() {
            public void accept(Integer element) {
                sum[0] += element;
            }
        });
        System.out.println(sum[0]);
        System.out.println(bag.removeIf(new Predicate<Integer>() {
            public boolean test(Integer element) {
                return element == 3;
            }
        }));
        tell(bag);
        bag.clear();
        System.out.println(bag.isEmpty());
        try {
            bag.add(1);
        } catch (UnsupportedOperationException e) {
            System.out.println(3);
        }
        try {
            bag.addAll(Arrays.asList(1));
        } catch (UnsupportedOperationException e) {
            System.out.println(4);
        }
        Iterator<Integer> plain = new Iterator<Integer>() {
            public boolean hasNext() {
                return false;
            }

            public Integer next() {
                return 1;
            }
        };
        try {
            plain.remove();
        } catch (UnsupportedOperationException e) {
            System.out.println(5);
        }
        plain.forEachRemaining(new Consumer<Integer>() {
            public void accept(Integer element) {
                System.out.println(element.intValue());
            }
        });
    }

    static void map() {
        Listed map = new Listed();
        for (int i = 0; i < 8; i++) {
            map.put(i * 3 % 8, i == 5 ? null : (Integer) (i * i));
        }
        System.out.println(map.size());
        System.out.println(map.isEmpty());
        System.out.println(map.get(3) + map.get(6));
        System.out.println(map.get(99) == null);
        System.out.println(map.containsKey(7));
        System.out.println(map.containsValue(36));
        System.out.println(map.containsValue(null));
        System.out.println(map.remove(3).intValue());
        System.out.println(map.remove(3) == null);
        System.out.println(map.hashCode());
        Map<Integer, Integer> other = new HashMap<Integer, Integer>(map);
        System.out.println(map.equals(other));
        System.out.println(map.equals(map));
        System.out.println(map.equals(Integer.valueOf(1)));
        tell(map.keySet());
        tell(map.values());
        System.out.println(map.entrySet().equals(other.entrySet()));
        System.out.println(map.entrySet().hashCode());
        System.out.println(map.entrySet().removeAll(new HashSet<Object>(Arrays.asList(1, 2, 3))));
        other.put(50, 1);
        map.putAll(other);
        System.out.println(map.size());
        System.out.println(map.keySet().remove(50));
        System.out.println(map.values().contains(4));
        map.clear();
        System.out.println(map.size());
        try {
            new AbstractMap<Integer, Integer>() {
                public Set<Map.Entry<Integer, Integer>> entrySet() {
                    return null;
                }
            }.put(1, 1);
        } catch (UnsupportedOperationException e) {
            System.out.println(6);
        }
    }

    static void value(Integer value) {
        System.out.println(value == null ? -9 : value);
    }

    static void defaults() {
        final Map<Integer, Integer> map = new Listed();
        for (int i = 0; i < 6; i++) {
            map.put(i, i == 2 ? null : (Integer) (i * 10));
        }
        value(map.getOrDefault(1, 5));
        value(map.getOrDefault(2, 5));
        value(map.getOrDefault(9, 5));
        value(map.putIfAbsent(2, 7));
        value(map.putIfAbsent(3, 7));
        System.out.println(map.remove(3, 1));
        System.out.println(map.remove(3, 30));
        System.out.println(map.remove(99, null));
        System.out.println(map.replace(4, 1, 2));
        System.out.println(map.replace(4, 40, 44));
        value(map.replace(4, 45));
        value(map.replace(98, 45));
        Function<Integer, Integer> made = new Function<Integer, Integer>() {
            public Integer apply(Integer key) {
                return key > 50 ? null : (Integer) (key * 3);
            }
        };
        value(map.computeIfAbsent(7, made));
        value(map.computeIfAbsent(7, made));
        value(map.computeIfAbsent(70, made));
        BiFunction<Integer, Integer, Integer> sum = new BiFunction<Integer, Integer, Integer>() {
            public Integer apply(Integer a, Integer b) {
                return b == null ? (Integer) 1 : a + b > 40 ? null : (Integer) (a + b);
            }
        };
        value(map.computeIfPresent(7, sum));
        value(map.computeIfPresent(4, sum));
        value(map.computeIfPresent(4, sum));
        value(map.compute(7, sum));
        value(map.compute(60, sum));
        value(map.merge(7, 2, sum));
        value(map.merge(61, 2, sum));
        value(map.merge(61, 60, sum));
        map.replaceAll(new BiFunction<Integer, Integer, Integer>() {
            public Integer apply(Integer key, Integer value) {
                return key + (value == null ? 0 : value);
            }
        });
        final long[] seen = new long[1];
        map.forEach(new BiConsumer<Integer, Integer>() {
            public void accept(Integer key, Integer value) {
                seen[0] = seen[0] * 31 + key * 100 + value;
            }
        });
        System.out.println(seen[0]);
        System.out.println(map.size());
    }

    static void thrown(RuntimeException e, String message, Throwable cause) {
        System.out.println(e.getMessage() == message);
        System.out.println(e.getCause() == cause);
        try {
            throw e;
        } catch (NoSuchElementException caught) {
            System.out.println(1);
        } catch (ConcurrentModificationException caught) {
            System.out.println(2);
        } catch (NumberFormatException caught) {
            System.out.println(3);
        } catch (SecurityException caught) {
            System.out.println(4);
        } catch (IllegalArgumentException caught) {
            System.out.println(5);
        }
    }

    static void exceptions() {
        Throwable cause = new Error();
        thrown(new NoSuchElementException(), null, null);
        thrown(new NoSuchElementException("a"), "a", null);
        thrown(new ConcurrentModificationException(), null, null);
        thrown(new ConcurrentModificationException("b"), "b", null);
        thrown(new ConcurrentModificationException("c", cause), "c", cause);
        thrown(new NumberFormatException(), null, null);
        thrown(new NumberFormatException("d"), "d", null);
        thrown(new SecurityException(), null, null);
        thrown(new SecurityException("e"), "e", null);
        thrown(new SecurityException("f", cause), "f", cause);
    }
}
