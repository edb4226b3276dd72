import java.util.AbstractList;
import java.util.ArrayList;
import java.util.Arrays;
import java.util.Collection;
import java.util.Collections;
import java.util.Comparator;
import java.util.ConcurrentModificationException;
import java.util.EmptyStackException;
import java.util.Enumeration;
import java.util.Iterator;
import java.util.LinkedList;
import java.util.List;
import java.util.ListIterator;
import java.util.NoSuchElementException;
import java.util.Stack;
import java.util.Vector;
import java.util.function.Consumer;
import java.util.function.Predicate;
import java.util.function.UnaryOperator;

/** ArrayList, LinkedList, Vector, Stack, lists of a program's own over AbstractList, and parts of all of these. */
public class Lists {
    static long seed = 7;

    static int choose(int bound) {
        seed = seed * 6364136223846793005L + 1442695040888963407L;
        return (int) ((seed >>> 33) % bound);
    }

    /** The least that a list needs. */
    static final class Plain extends AbstractList<Integer> {
        private Integer[] all = new Integer[200];
        private int size;

        public int size() {
            return size;
        }

        public Integer get(int index) {
            if (index < 0 || index >= size) {
                throw new IndexOutOfBoundsException();
            }
            return all[index];
        }

        public Integer set(int index, Integer element) {
            Integer old = get(index);
            all[index] = element;
            return old;
        }

        public void add(int index, Integer element) {
            if (index < 0 || index > size) {
                throw new IndexOutOfBoundsException();
            }
            for (int i = size; i > index; i--) {
                all[i] = all[i - 1];
            }
            all[index] = element;
            size++;
            modCount++;
        }

        public Integer remove(int index) {
            Integer old = get(index);
            size--;
            for (int i = index; i < size; i++) {
                all[i] = all[i + 1];
            }
            modCount++;
            return old;
        }
    }

    public static void main(String[] arguments) {
        for (int round = 0; round < 4; round++) {
            exercise(round == 0 ? new ArrayList<Integer>() : round == 1 ? new LinkedList<Integer>() : round == 2 ? new Plain() : new Vector<Integer>(2), 200);
            List<Integer> host = round == 0 ? new ArrayList<Integer>(3) : round == 1 ? new LinkedList<Integer>() : round == 2 ? new Plain() : new Stack<Integer>();
            for (int i = 0; i < 9; i++) {
                host.add(i);
            }
            exercise(host.subList(2, 7), 80);
            tell(host);
            exercise(host.subList(1, 4).subList(1, 2), 40);
            tell(host);
            faults(host);
            order(host);
        }
        arrayLists();
        List<Integer> locked = Collections.synchronizedList(new ArrayList<Integer>(Arrays.asList(1, 2, 3, 4, 5, 6)));
        exercise(locked, 250);
        exercise(locked.subList(0, locked.size()), 60);
        order(locked);
        linkedLists();
        vectors();
        stacks();
        fixed();
    }

    static void tell(Collection<Integer> all) {
        System.out.println(all.size());
        for (Integer element : all) {
            System.out.println(element == null ? -999 : element);
        }
    }

    static void exercise(List<Integer> list, int steps) {
        for (int step = 0; step < steps; step++) {
            int size = list.size();
            Integer value = choose(12) == 0 ? null : Integer.valueOf(choose(10) * 40);
            switch (choose(22)) {
                case 0:
                case 1:
                    System.out.println(list.add(value));
                    break;
                case 2:
                case 3:
                    list.add(choose(size + 1), value);
                    break;
                case 4:
                    if (size > 0) {
                        Integer old = list.remove(choose(size));
                        System.out.println(old == null ? -1 : old);
                    }
                    break;
                case 5:
                    System.out.println(list.remove((Object) value));
                    break;
                case 6:
                    if (size > 0) {
                        Integer old = list.set(choose(size), value);
                        System.out.println(old == null ? -1 : old);
                    }
                    break;
                case 7:
                    System.out.println(list.indexOf(value));
                    break;
                case 8:
                    System.out.println(list.lastIndexOf(value));
                    break;
                case 9:
                    System.out.println(list.contains(value));
                    break;
                case 10:
                    System.out.println(list.addAll(Arrays.asList(value, 1, 2)));
                    break;
                case 11:
                    System.out.println(list.addAll(choose(size + 1), Arrays.asList(5, value)));
                    break;
                case 12:
                    System.out.println(list.addAll(Collections.<Integer>emptyList()));
                    System.out.println(list.addAll(0, new ArrayList<Integer>()));
                    break;
                case 13:
                    System.out.println(list.removeAll(Arrays.asList(value, 40)));
                    break;
                case 14:
                    System.out.println(choose(6) == 0 && list.retainAll(Arrays.asList(value, 0, 40, 80, 120, 160, 200, 1, 2)));
                    break;
                case 15:
                    System.out.println(list.containsAll(Arrays.asList(value, 1)));
                    break;
                case 16:
                    walk(list);
                    break;
                case 17:
                    System.out.println(list.hashCode());
                    System.out.println(list.equals(new ArrayList<Integer>(list)));
                    System.out.println(list.equals(new LinkedList<Integer>(list)));
                    System.out.println(list.equals(Arrays.asList(1, 2)));
                    System.out.println(list.equals(Integer.valueOf(1)));
                    System.out.println(list.equals(list));
                    break;
                case 18:
                    arrays(list);
                    break;
                case 19:
                    System.out.println(list.removeIf(new Predicate<Integer>() {
                        public boolean test(Integer element) {
                            return element != null && element % 120 == 80;
                        }
                    }));
                    break;
                case 20:
                    list.replaceAll(new UnaryOperator<Integer>() {
                        public Integer apply(Integer element) {
                            return element == null ? null : (Integer) (element + 1);
                        }
                    });
                    break;
                default:
                    if (choose(8) == 0) {
                        list.clear();
                    }
                    System.out.println(list.isEmpty());
            }
            tell(list);
        }
    }

    static void walk(List<Integer> list) {
        ListIterator<Integer> all = choose(2) == 0 ? list.listIterator() : list.listIterator(choose(list.size() + 1));
        for (int step = 0; step < 12; step++) {
            System.out.println(all.nextIndex() * 1000 + all.previousIndex());
            if (choose(2) == 0 ? all.hasNext() : !all.hasPrevious() && all.hasNext()) {
                all.next();
            } else if (all.hasPrevious()) {
                all.previous();
            } else {
                return;
            }
            switch (choose(6)) {
                case 0:
                    all.remove();
                    break;
                case 1:
                    all.set(choose(5));
                    break;
                case 2:
                    all.add(-choose(5));
                    break;
                default:
            }
        }
        Iterator<Integer> rest = list.iterator();
        if (rest.hasNext()) {
            rest.next();
            rest.remove();
        }
        final long[] sum = new long[1];
        Consumer<Integer> adding = new Consumer<Integer>() {
            public void accept(Integer element) {
                sum[0] = sum[0] * 31 + (element == null ? 7 : element);
            }
        };
        rest.forEachRemaining(adding);
        list.forEach(adding);
        System.out.println(sum[0]);
    }

    static void arrays(List<Integer> list) {
        Object[] all = list.toArray();
        Integer[] same = list.toArray(new Integer[0]);
        Integer[] longer = list.toArray(new Integer[list.size() + 3]);
        System.out.println(all.length + 1000 * same.length + 1000000L * longer.length);
        for (int i = 0; i < all.length; i++) {
            System.out.println(all[i] == same[i] && same[i] == longer[i]);
        }
        System.out.println(longer[list.size()] == null);
    }

    static void faults(List<Integer> list) {
        for (int which = 0; which < 22; which++) {
            try {
                fault(list, which);
                System.out.println(0);
            } catch (IndexOutOfBoundsException e) {
                System.out.println(1);
            } catch (NoSuchElementException e) {
                System.out.println(2);
            } catch (ConcurrentModificationException e) {
                System.out.println(3);
            } catch (IllegalStateException e) {
                System.out.println(4);
            } catch (IllegalArgumentException e) {
                System.out.println(5);
            } catch (NullPointerException e) {
                System.out.println(6);
            }
        }
    }

    static void fault(List<Integer> list, int which) {
        int size = list.size();
        switch (which) {
            case 0: list.get(size); break;
            case 1: list.get(-1); break;
            case 2: list.set(size, 1); break;
            case 3: list.add(size + 1, 1); break;
            case 4: list.remove(size); break;
            case 5: list.listIterator(size + 1); break;
            case 6: list.subList(2, 1); break;
            case 7: list.subList(0, size + 1); break;
            case 8: list.subList(-1, 1); break;
            case 9: list.iterator().remove(); break;
            case 10: list.listIterator().set(1); break;
            case 11: list.listIterator(size).next(); break;
            case 12: list.listIterator().previous(); break;
            case 13:
                Iterator<Integer> old = list.iterator();
                list.add(1);
                old.next();
                break;
            case 14:
                for (Integer element : list) {
                    list.remove(element);
                }
                break;
            case 15:
                List<Integer> part = list.subList(0, 1);
                list.add(3);
                part.size();
                break;
            case 16: list.addAll(size + 1, list); break;
            case 17: list.addAll(null); break;
            case 18: list.forEach(null); break;
            case 19: list.removeIf(null); break;
            case 20: list.replaceAll(null); break;
            default:
                ListIterator<Integer> last = list.listIterator(size);
                last.previous();
                list.remove(0);
                last.remove();
        }
    }

    static void order(List<Integer> list) {
        list.clear();
        for (int i = 0; i < 60; i++) {
            list.add(choose(30));
        }
        list.sort(null);
        tell(list);
        list.sort(new Comparator<Integer>() {
            public int compare(Integer a, Integer b) {
                return a % 5 - b % 5;
            }
        });
        tell(list);
        Collections.sort(list);
        tell(list);
    }

    static void arrayLists() {
        ArrayList<Integer> list = new ArrayList<Integer>(0);
        list.ensureCapacity(5);
        list.ensureCapacity(50);
        list.trimToSize();
        for (int i = 0; i < 30; i++) {
            list.add(i);
        }
        list.trimToSize();
        Object copy = list.clone();
        System.out.println(((ArrayList<?>) copy).equals(list) && copy != list);
        list.ensureCapacity(100);
        list.subList(5, 15).clear();
        tell(list);
        try {
            new ArrayList<Integer>(-1);
        } catch (IllegalArgumentException e) {
            System.out.println(11);
        }
        try {
            list.forEach(new Consumer<Integer>() {
                public void accept(Integer element) {
                    list.add(element);
                }
            });
        } catch (ConcurrentModificationException e) {
            System.out.println(12);
        }
        tell(list);
        try {
            list.removeIf(new Predicate<Integer>() {
                public boolean test(Integer element) {
                    list.add(element);
                    return false;
                }
            });
        } catch (ConcurrentModificationException e) {
            System.out.println(13);
        }
    }

    static void linkedLists() {
        LinkedList<Integer> list = new LinkedList<Integer>(Arrays.asList(3, 1, 2));
        System.out.println(((LinkedList<?>) list.clone()).equals(list));
        for (int i = 0; i < 3; i++) {
            list.addFirst(i);
            list.addLast(i * i);
        }
        tell(list);
        for (Iterator<Integer> down = list.descendingIterator(); down.hasNext(); ) {
            Integer element = down.next();
            System.out.println(element.intValue());
            if (element == 1) {
                down.remove();
            }
        }
        tell(list);
    }

    static void vectors() {
        for (int increment = 0; increment < 4; increment += 3) {
            Vector<Integer> vector = new Vector<Integer>(1, increment);
            for (int i = 0; i < 9; i++) {
                vector.addElement(i % 5);
                System.out.println(vector.capacity());
            }
            vector.insertElementAt(7, 3);
            vector.setElementAt(8, 4);
            vector.removeElementAt(0);
            System.out.println(vector.removeElement(8));
            System.out.println(vector.removeElement(99));
            tell(vector);
            System.out.println(vector.firstElement() * 100 + vector.lastElement() * 10 + vector.elementAt(2));
            System.out.println(vector.indexOf(3, 1) * 100 + vector.indexOf(3, 7) * 10 + vector.lastIndexOf(3, 5));
            for (Enumeration<Integer> all = vector.elements(); all.hasMoreElements(); ) {
                System.out.println(all.nextElement().intValue());
            }
            Integer[] into = new Integer[vector.size() + 1];
            vector.copyInto(into);
            System.out.println(into[2].equals(vector.get(2)));
            vector.ensureCapacity(40);
            System.out.println(vector.capacity());
            vector.addAll(2, Arrays.asList(1, 2, 3));
            vector.trimToSize();
            System.out.println(vector.capacity());
            vector.setSize(14);
            tell(vector);
            vector.setSize(4);
            tell(vector);
            System.out.println(((Vector<?>) vector.clone()).equals(vector));
            vector.removeAllElements();
            System.out.println(vector.isEmpty());
        }
        tell(new Vector<Integer>(Arrays.asList(4, 5)));
        System.out.println(new Vector<Integer>().capacity());
        for (int which = 0; which < 9; which++) {
            Vector<Integer> vector = new Vector<Integer>(3);
            try {
                switch (which) {
                    case 0: vector.elementAt(0); break;
                    case 1: vector.firstElement(); break;
                    case 2: vector.lastElement(); break;
                    case 3: vector.setElementAt(1, 0); break;
                    case 4: vector.insertElementAt(1, 1); break;
                    case 5: vector.removeElementAt(0); break;
                    case 6: vector.elements().nextElement(); break;
                    case 7: vector.lastIndexOf(1, 0); break;
                    default: new Vector<Integer>(-1);
                }
                System.out.println(0);
            } catch (ArrayIndexOutOfBoundsException e) {
                System.out.println(1);
            } catch (IndexOutOfBoundsException e) {
                System.out.println(2);
            } catch (NoSuchElementException e) {
                System.out.println(3);
            } catch (IllegalArgumentException e) {
                System.out.println(4);
            }
        }
    }

    static void stacks() {
        Stack<Integer> stack = new Stack<Integer>();
        System.out.println(stack.empty());
        for (int i = 0; i < 6; i++) {
            System.out.println(stack.push(i * i).intValue());
        }
        System.out.println(stack.search(9));
        System.out.println(stack.search(7));
        System.out.println(stack.peek().intValue());
        System.out.println(stack.pop().intValue());
        tell(stack);
        stack.clear();
        try {
            stack.pop();
        } catch (EmptyStackException e) {
            System.out.println(1);
        }
        try {
            stack.peek();
        } catch (EmptyStackException e) {
            System.out.println(2);
        }
    }

    static void fixed() {
        List<Integer> list = Arrays.asList(4, 5, 6);
        list.set(1, 9);
        tell(list);
        try {
            list.add(1);
        } catch (UnsupportedOperationException e) {
            System.out.println(21);
        }
        try {
            list.remove(1);
        } catch (UnsupportedOperationException e) {
            System.out.println(22);
        }
        try {
            list.get(3);
        } catch (ArrayIndexOutOfBoundsException e) {
            System.out.println(23);
        }
        try {
            new AbstractList<Integer>() {
                public int size() {
                    return 1;
                }

                public Integer get(int index) {
                    return index;
                }
            }.set(0, 1);
        } catch (UnsupportedOperationException e) {
            System.out.println(24);
        }
    }
}
