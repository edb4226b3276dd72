import java.util.AbstractQueue;
import java.util.ArrayDeque;
import java.util.Arrays;
import java.util.Collection;
import java.util.Collections;
import java.util.Comparator;
import java.util.ConcurrentModificationException;
import java.util.Deque;
import java.util.Iterator;
import java.util.LinkedList;
import java.util.NoSuchElementException;
import java.util.PriorityQueue;
import java.util.Queue;
import java.util.TreeSet;

/** ArrayDeque, LinkedList and PriorityQueue, and a queue of a program's own over AbstractQueue. */
public class Queues {
    static long seed = 99;

    static int choose(int bound) {
        seed = seed * 6364136223846793005L + 1442695040888963407L;
        return (int) ((seed >>> 33) % bound);
    }

    static void tell(Collection<Integer> all) {
        System.out.println(all.size());
        for (Integer element : all) {
            System.out.println(element.intValue());
        }
    }

    static void tell(Integer element) {
        System.out.println(element == null ? -1 : element);
    }

    public static void main(String[] arguments) {
        both(new ArrayDeque<Integer>(), 500);
        both(new ArrayDeque<Integer>(1), 200);
        both(new ArrayDeque<Integer>(Arrays.asList(1, 2, 3)), 100);
        both(new LinkedList<Integer>(), 400);
        both(new ArrayDeque<Integer>(Arrays.asList(4, 5)).clone(), 20);
        heap(new PriorityQueue<Integer>(), 300);
        heap(new PriorityQueue<Integer>(1), 100);
        heap(new PriorityQueue<Integer>(Collections.<Integer>reverseOrder()), 100);
        heap(new PriorityQueue<Integer>(5, new Comparator<Integer>() {
            public int compare(Integer a, Integer b) {
                return a % 7 - b % 7;
            }
        }), 200);
        heap(new PriorityQueue<Integer>(Arrays.asList(5, 3, 9, 1, 7, 7, 2, 8)), 50);
        heap(new PriorityQueue<Integer>(new PriorityQueue<Integer>(Arrays.asList(5, 3, 9))), 50);
        heap(new PriorityQueue<Integer>(new TreeSet<Integer>(Arrays.asList(5, 3, 9))), 50);
        PriorityQueue<Integer> down = new PriorityQueue<Integer>(Collections.<Integer>reverseOrder());
        down.addAll(Arrays.asList(1, 5, 3));
        heap(new PriorityQueue<Integer>((Collection<Integer>) down), 30);
        System.out.println(down.comparator() == Collections.<Integer>reverseOrder());
        own();
        faults();
    }

    static void both(Deque<Integer> deque, int steps) {
        for (int step = 0; step < steps; step++) {
            Integer value = choose(9) * 50;
            switch (choose(30)) {
                case 0: deque.addFirst(value); break;
                case 1: deque.addLast(value); break;
                case 2: System.out.println(deque.offerFirst(value)); break;
                case 3: System.out.println(deque.offerLast(value)); break;
                case 4: System.out.println(deque.add(value)); break;
                case 5: System.out.println(deque.offer(value)); break;
                case 6: deque.push(value); break;
                case 7: tell(deque.pollFirst()); break;
                case 8: tell(deque.pollLast()); break;
                case 9: tell(deque.poll()); break;
                case 10: tell(deque.peekFirst()); break;
                case 11: tell(deque.peekLast()); break;
                case 12: tell(deque.peek()); break;
                case 13: System.out.println(deque.removeFirstOccurrence(value)); break;
                case 14: System.out.println(deque.removeLastOccurrence(value)); break;
                case 15: System.out.println(deque.remove((Object) value)); break;
                case 16: System.out.println(deque.contains(value)); break;
                case 17: System.out.println(deque.addAll(Arrays.asList(value, 3, 4))); break;
                case 18: System.out.println(deque.removeAll(Arrays.asList(value, 3))); break;
                case 19: throwing(deque, choose(7)); break;
                case 20: walk(deque.iterator()); break;
                case 21: walk(deque.descendingIterator()); break;
                case 22:
                    System.out.println(deque.toArray().length);
                    System.out.println(deque.toArray(new Integer[2]).length);
                    break;
                case 23:
                    if (choose(9) == 0) {
                        deque.clear();
                    }
                    System.out.println(deque.isEmpty());
                    break;
                default: deque.addLast(step);
            }
            if (step % 10 == 0) {
                tell(deque);
            }
            System.out.println(deque.size());
        }
        tell(deque);
        for (int which = 0; which < 7; which++) {
            deque.add(which);
            throwing(deque, which);
        }
        tell(deque);
    }

    static void throwing(Deque<Integer> deque, int which) {
        try {
            switch (which) {
                case 0: tell(deque.getFirst()); break;
                case 1: tell(deque.getLast()); break;
                case 2: tell(deque.element()); break;
                case 3: tell(deque.removeFirst()); break;
                case 4: tell(deque.removeLast()); break;
                case 5: tell(deque.remove()); break;
                default: tell(deque.pop());
            }
        } catch (NoSuchElementException e) {
            System.out.println(-2);
        }
    }

    static void walk(Iterator<Integer> all) {
        while (all.hasNext()) {
            System.out.println(all.next().intValue());
            if (choose(6) == 0) {
                all.remove();
            }
        }
        try {
            all.next();
        } catch (NoSuchElementException e) {
            System.out.println(-3);
        }
    }

    static void heap(PriorityQueue<Integer> queue, int steps) {
        tell(queue);
        for (int step = 0; step < steps; step++) {
            Integer value = choose(40);
            switch (choose(14)) {
                case 0:
                case 1:
                case 2: System.out.println(queue.offer(value)); break;
                case 3:
                case 4: System.out.println(queue.add(value)); break;
                case 5: tell(queue.poll()); break;
                case 6: tell(queue.peek()); break;
                case 7: System.out.println(queue.remove((Object) value)); break;
                case 8: System.out.println(queue.contains(value)); break;
                case 9:
                    try {
                        tell(choose(2) == 0 ? queue.remove() : queue.element());
                    } catch (NoSuchElementException e) {
                        System.out.println(-2);
                    }
                    break;
                case 10: walk(queue.iterator()); break;
                case 11:
                    System.out.println(queue.toArray().length);
                    System.out.println(queue.toArray(new Integer[1]).length);
                    break;
                case 12:
                    if (choose(12) == 0) {
                        queue.clear();
                    }
                    break;
                default: System.out.println(queue.addAll(Arrays.asList(value, 3)));
            }
            tell(queue);
        }
        while (!queue.isEmpty()) {
            tell(queue.poll());
        }
        System.out.println(queue.comparator() == null);
    }

    /** At most three elements. */
    static final class Three extends AbstractQueue<Integer> {
        final LinkedList<Integer> all = new LinkedList<Integer>();

        public boolean offer(Integer element) {
            return all.size() < 3 && all.offer(element);
        }

        public Integer poll() {
            return all.poll();
        }

        public Integer peek() {
            return all.peek();
        }

        public int size() {
            return all.size();
        }

        public Iterator<Integer> iterator() {
            return all.iterator();
        }
    }

    static void own() {
        Queue<Integer> queue = new Three();
        try {
            queue.element();
        } catch (NoSuchElementException e) {
            System.out.println(31);
        }
        try {
            queue.remove();
        } catch (NoSuchElementException e) {
            System.out.println(32);
        }
        System.out.println(queue.addAll(Arrays.asList(1, 2)));
        try {
            queue.addAll(queue);
        } catch (IllegalArgumentException e) {
            System.out.println(33);
        }
        System.out.println(queue.add(3));
        try {
            queue.add(4);
        } catch (IllegalStateException e) {
            System.out.println(34);
        }
        tell(queue.element());
        tell(queue.remove());
        tell(queue);
        queue.clear();
        tell(queue);
    }

    static void faults() {
        try {
            new ArrayDeque<Integer>().add(null);
        } catch (NullPointerException e) {
            System.out.println(41);
        }
        try {
            new ArrayDeque<Integer>().addFirst(null);
        } catch (NullPointerException e) {
            System.out.println(42);
        }
        try {
            new PriorityQueue<Integer>().offer(null);
        } catch (NullPointerException e) {
            System.out.println(43);
        }
        try {
            new PriorityQueue<Integer>(0);
        } catch (IllegalArgumentException e) {
            System.out.println(44);
        }
        try {
            PriorityQueue<Integer> queue = new PriorityQueue<Integer>(Arrays.asList(1, 2));
            Iterator<Integer> all = queue.iterator();
            queue.add(3);
            all.next();
        } catch (ConcurrentModificationException e) {
            System.out.println(45);
        }
        try {
            new PriorityQueue<Integer>(Arrays.asList(1, 2)).iterator().remove();
        } catch (IllegalStateException e) {
            System.out.println(46);
        }
        try {
            new ArrayDeque<Integer>().iterator().remove();
        } catch (IllegalStateException e) {
            System.out.println(47);
        }
        System.out.println(new ArrayDeque<Integer>().contains(null));
        System.out.println(new ArrayDeque<Integer>().removeLastOccurrence(null));
        System.out.println(new PriorityQueue<Integer>().contains(null));
    }
}
