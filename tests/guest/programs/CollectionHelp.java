import java.util.ArrayList;
import java.util.Arrays;
import java.util.Collection;
import java.util.Collections;
import java.util.Comparator;
import java.util.HashMap;
import java.util.HashSet;
import java.util.Iterator;
import java.util.LinkedList;
import java.util.List;
import java.util.Map;
import java.util.NoSuchElementException;
import java.util.Random;
import java.util.Set;
import java.util.function.Consumer;

/** Collections. */
public class CollectionHelp {
    static final Comparator<Integer> BY_DIGIT = new Comparator<Integer>() {
        public int compare(Integer a, Integer b) {
            return a % 10 - b % 10;
        }
    };

    static void tell(Collection<Integer> all) {
        System.out.println(all.size());
        for (Integer element : all) {
            System.out.println(element == null ? -9 : element);
        }
    }

    public static void main(String[] arguments) {
        order(new ArrayList<Integer>());
        order(new LinkedList<Integer>());
        changes(new ArrayList<Integer>());
        changes(new LinkedList<Integer>());
        small();
        fixed();
        locked();
        faults();
    }

    static void order(List<Integer> list) {
        for (int i = 0; i < 40; i++) {
            list.add(i * 37 % 101);
        }
        System.out.println(Collections.min(list).intValue());
        System.out.println(Collections.max(list).intValue());
        System.out.println(Collections.min(list, BY_DIGIT).intValue());
        System.out.println(Collections.max(list, BY_DIGIT).intValue());
        Collections.sort(list, BY_DIGIT);
        tell(list);
        Collections.sort(list);
        tell(list);
        for (int i = -3; i < 110; i += 4) {
            System.out.println(Collections.binarySearch(list, i));
        }
        Collections.sort(list, Collections.<Integer>reverseOrder());
        System.out.println(Collections.binarySearch(list, 37, Collections.<Integer>reverseOrder()));
        System.out.println(Collections.binarySearch(list, 38, Collections.<Integer>reverseOrder()));
        System.out.println(Collections.<Integer>reverseOrder().compare(1, 2));
        System.out.println(Collections.reverseOrder(BY_DIGIT).compare(1, 2));
        System.out.println(Collections.reverseOrder(Collections.reverseOrder(BY_DIGIT)) == BY_DIGIT);
    }

    static void changes(List<Integer> list) {
        System.out.println(Collections.addAll(list, 1, 2, 3, 4, 5, 6, 7, 2));
        Collections.reverse(list);
        tell(list);
        Collections.swap(list, 1, 5);
        tell(list);
        for (int distance = -9; distance < 12; distance += 4) {
            Collections.rotate(list, distance);
            tell(list);
        }
        Collections.shuffle(list, new Random(5));
        tell(list);
        System.out.println(Collections.replaceAll(list, 2, null));
        System.out.println(Collections.replaceAll(list, 99, 1));
        tell(list);
        System.out.println(Collections.frequency(list, null));
        System.out.println(Collections.frequency(list, 4));
        System.out.println(Collections.disjoint(list, Arrays.asList(99, 98)));
        System.out.println(Collections.disjoint(list, Arrays.asList(99, 4)));
        List<Integer> other = new ArrayList<Integer>(list);
        Collections.fill(list, 8);
        tell(list);
        Collections.copy(list, other.subList(0, 3));
        tell(list);
        Collections.shuffle(list);
        System.out.println(list.size());
        Collections.rotate(new ArrayList<Integer>(), 3);
    }

    static void small() {
        tell(Collections.<Integer>emptyList());
        tell(Collections.<Integer>emptySet());
        System.out.println(Collections.<Integer, Integer>emptyMap().size());
        System.out.println(Collections.<Integer>emptyIterator().hasNext());
        tell(Collections.singleton(4));
        tell(Collections.singletonList(5));
        Map<Integer, Integer> one = Collections.singletonMap(6, 7);
        System.out.println(one.size() * 100 + one.get(6));
        System.out.println(one.containsKey(7));
        tell(Collections.nCopies(3, 9));
        System.out.println(Collections.nCopies(3, 9).equals(Arrays.asList(9, 9, 9)));
        System.out.println(Collections.EMPTY_LIST.isEmpty() && Collections.EMPTY_SET.isEmpty() && Collections.EMPTY_MAP.isEmpty());
        for (Map.Entry<Integer, Integer> entry : one.entrySet()) {
            System.out.println(entry.getKey() + entry.getValue() * 10);
        }
    }

    static void fixed() {
        List<Integer> list = new ArrayList<Integer>(Arrays.asList(3, 1, 2));
        Collection<Integer> all = Collections.unmodifiableCollection(list);
        List<Integer> fixedList = Collections.unmodifiableList(list);
        Set<Integer> set = Collections.unmodifiableSet(new HashSet<Integer>(list));
        Map<Integer, Integer> source = new HashMap<Integer, Integer>();
        source.put(1, 10);
        source.put(2, 20);
        Map<Integer, Integer> map = Collections.unmodifiableMap(source);
        tell(all);
        tell(fixedList);
        tell(set);
        System.out.println(all.contains(3) && fixedList.contains(3) && set.contains(3) && map.containsKey(2));
        System.out.println(fixedList.get(1) + map.get(2) + map.size() + map.entrySet().size());
        System.out.println(fixedList.equals(list) && set.equals(new HashSet<Integer>(list)) && map.equals(source));
        System.out.println(fixedList.hashCode() + set.hashCode() + map.hashCode());
        tell(map.keySet());
        tell(map.values());
        list.add(77);
        tell(fixedList);
        for (int which = 0; which < 20; which++) {
            try {
                switch (which) {
                    case 0: all.add(1); break;
                    case 1: all.remove(3); break;
                    case 2: all.clear(); break;
                    case 3: fixedList.add(1); break;
                    case 4: fixedList.set(0, 1); break;
                    case 5: fixedList.remove(0); break;
                    case 6: fixedList.remove((Object) 3); break;
                    case 7: fixedList.clear(); break;
                    case 8: fixedList.sort(null); break;
                    case 9: set.add(1); break;
                    case 10: set.remove(3); break;
                    case 11: set.clear(); break;
                    case 12: map.put(1, 1); break;
                    case 13: map.remove(1); break;
                    case 14: map.clear(); break;
                    case 15: map.entrySet().iterator().next().setValue(3); break;
                    case 16: map.entrySet().clear(); break;
                    case 17: map.entrySet().remove(Integer.valueOf(3)); break;
                    case 18:
                        Iterator<Integer> walk = all.iterator();
                        walk.next();
                        walk.remove();
                        break;
                    default: map.keySet().remove(1);
                }
                System.out.println(0);
            } catch (UnsupportedOperationException e) {
                System.out.println(1);
            }
        }
        tell(list);
    }

    static void locked() {
        final Collection<Integer> all = Collections.synchronizedCollection(new LinkedList<Integer>(Arrays.asList(4, 1, 3)));
        System.out.println(all.add(9));
        System.out.println(all.remove(1));
        tell(all);
        final long[] sum = new long[1];
        all.forEach(new Consumer<Integer>() {
            public void accept(Integer element) {
                sum[0] = sum[0] * 10 + element;
            }
        });
        System.out.println(sum[0]);
        List<Integer> list = Collections.synchronizedList(new ArrayList<Integer>());
        Thread[] threads = new Thread[3];
        for (int i = 0; i < threads.length; i++) {
            final int first = 10 * i;
            threads[i] = new Thread(new Runnable() {
                public void run() {
                    for (int number = first; number < first + 10; number++) {
                        list.add(number);
                    }
                }
            });
            threads[i].start();
        }
        try {
            for (int i = 0; i < threads.length; i++) {
                threads[i].join();
            }
        } catch (InterruptedException e) {
            System.out.println(-1);
        }
        Collections.sort(list);
        System.out.println(list.get(7).intValue());
        tell(list);
        try {
            Map<Integer, Boolean> map = new HashMap<Integer, Boolean>();
            map.put(1, true);
            Collections.newSetFromMap(map);
        } catch (IllegalArgumentException e) {
            System.out.println(41);
        }
        try {
            Collections.synchronizedList(null);
        } catch (NullPointerException e) {
            System.out.println(42);
        }
    }

    static void faults() {
        for (int which = 0; which < 6; which++) {
            try {
                switch (which) {
                    case 0: Collections.min(new ArrayList<Integer>()); break;
                    case 1: Collections.nCopies(-1, 1); break;
                    case 2: Collections.copy(new ArrayList<Integer>(), Arrays.asList(1)); break;
                    case 3: Collections.unmodifiableList(null); break;
                    case 4: Collections.swap(Arrays.asList(1, 2), 0, 2); break;
                    default: Collections.nCopies(1, 1).get(1);
                }
                System.out.println(0);
            } catch (NoSuchElementException e) {
                System.out.println(1);
            } catch (IllegalArgumentException e) {
                System.out.println(2);
            } catch (IndexOutOfBoundsException e) {
                System.out.println(3);
            } catch (NullPointerException e) {
                System.out.println(4);
            }
        }
    }
}
