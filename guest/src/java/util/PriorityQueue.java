package java.util;

/** A queue from which the least element comes first: a heap in an array, in which no element is below its parent. */
public class PriorityQueue<E> extends AbstractQueue<E> implements java.io.Serializable {
    Object[] heap;
    int size;
    private final Comparator<? super E> order;
    int changes;

    public PriorityQueue() {
        this(11, null);
    }

    public PriorityQueue(int capacity) {
        this(capacity, null);
    }

    public PriorityQueue(Comparator<? super E> order) {
        this(11, order);
    }

    public PriorityQueue(int capacity, Comparator<? super E> order) {
        if (capacity < 1) {
            throw new IllegalArgumentException();
        }
        this.heap = new Object[capacity];
        this.order = order;
    }

    @SuppressWarnings("unchecked")
    public PriorityQueue(Collection<? extends E> others) {
        this(Math.max(1, others.size()), (Comparator<? super E>) orderOf(others));
        fill(others);
    }

    @SuppressWarnings("unchecked")
    public PriorityQueue(PriorityQueue<? extends E> others) {
        this(Math.max(1, others.size()), (Comparator<? super E>) others.comparator());
        fill(others);
    }

    @SuppressWarnings("unchecked")
    public PriorityQueue(SortedSet<? extends E> others) {
        this(Math.max(1, others.size()), (Comparator<? super E>) others.comparator());
        fill(others);
    }

    private static Comparator<?> orderOf(Collection<?> others) {
        if (others instanceof SortedSet) {
            return ((SortedSet<?>) others).comparator();
        }
        return others instanceof PriorityQueue ? ((PriorityQueue<?>) others).comparator() : null;
    }

    private void fill(Collection<? extends E> others) {
        for (E other : others) {
            heap[size++] = Objects.requireNonNull(other);
        }
        for (int i = (size >>> 1) - 1; i >= 0; i--) {
            sink(i, heap[i]);
        }
    }

    public Comparator<? super E> comparator() {
        return order;
    }

    // THE HEAP

    /** Puts an element where its parent isn't above it, from a place upwards. */
    private void rise(int at, Object element) {
        while (at > 0) {
            int parent = at - 1 >>> 1;
            if (Values.compare(order, element, heap[parent]) >= 0) {
                break;
            }
            heap[at] = heap[parent];
            at = parent;
        }
        heap[at] = element;
    }

    /** Puts an element where no child is below it, from a place downwards. */
    private void sink(int at, Object element) {
        while (at < size >>> 1) {
            int child = 2 * at + 1;
            if (child + 1 < size && Values.compare(order, heap[child], heap[child + 1]) > 0) {
                child++;
            }
            if (Values.compare(order, element, heap[child]) <= 0) {
                break;
            }
            heap[at] = heap[child];
            at = child;
        }
        heap[at] = element;
    }

    /** Takes out what is at a place. Where the last element came to stand before that place, it is answered. */
    @SuppressWarnings("unchecked")
    private E removeAt(int at) {
        changes++;
        size--;
        Object moved = heap[size];
        heap[size] = null;
        if (at == size) {
            return null;
        }
        sink(at, moved);
        if (heap[at] != moved) {
            return null;
        }
        rise(at, moved);
        return heap[at] != moved ? (E) moved : null;
    }

    // THE QUEUE

    @Override
    public boolean add(E element) {
        return offer(element);
    }

    @Override
    public boolean offer(E element) {
        Objects.requireNonNull(element);
        changes++;
        if (size == heap.length) {
            Object[] longer = new Object[size < 64 ? 2 * size + 2 : size + (size >> 1)];
            ArrayList.copy(heap, 0, longer, 0, size);
            heap = longer;
        }
        size++;
        rise(size - 1, element);
        return true;
    }

    @Override
    @SuppressWarnings("unchecked")
    public E peek() {
        return (E) heap[0];
    }

    @Override
    @SuppressWarnings("unchecked")
    public E poll() {
        if (size == 0) {
            return null;
        }
        E least = (E) heap[0];
        removeAt(0);
        return least;
    }

    @Override
    public int size() {
        return size;
    }

    @Override
    public void clear() {
        changes++;
        for (int i = 0; i < size; i++) {
            heap[i] = null;
        }
        size = 0;
    }

    @Override
    public boolean contains(Object element) {
        return indexOf(element) >= 0;
    }

    private int indexOf(Object element) {
        for (int i = 0; i < size && element != null; i++) {
            if (Values.same(element, heap[i])) {
                return i;
            }
        }
        return -1;
    }

    @Override
    public boolean remove(Object element) {
        int index = indexOf(element);
        if (index < 0) {
            return false;
        }
        removeAt(index);
        return true;
    }

    static <E> E removeAt(PriorityQueue<E> queue, int at) {
        return queue.removeAt(at);
    }

    /** Takes out the element that is this object. */
    static void removeObject(PriorityQueue<?> queue, Object element) {
        for (int i = 0; i < queue.size; i++) {
            if (queue.heap[i] == element) {
                queue.removeAt(i);
                return;
            }
        }
    }

    @Override
    public Iterator<E> iterator() {
        return new HeapWalk<E>(this);
    }

    /** A walk along the array, and then over what a removal moved to a place before. */
    static final class HeapWalk<E> implements Iterator<E> {
        final PriorityQueue<E> queue;
        int next;
        int last = -1;
        ArrayDeque<E> moved;
        E lastMoved;
        int changes;

        HeapWalk(PriorityQueue<E> queue) {
            this.queue = queue;
            this.changes = queue.changes;
        }

        @Override
        public boolean hasNext() {
            return next < queue.size || moved != null && !moved.isEmpty();
        }

        @Override
        @SuppressWarnings("unchecked")
        public E next() {
            if (changes != queue.changes) {
                throw new ConcurrentModificationException();
            }
            if (next < queue.size) {
                last = next++;
                return (E) queue.heap[last];
            }
            last = -1;
            lastMoved = moved == null ? null : moved.poll();
            if (lastMoved == null) {
                throw new NoSuchElementException();
            }
            return lastMoved;
        }

        @Override
        public void remove() {
            if (changes != queue.changes) {
                throw new ConcurrentModificationException();
            }
            if (last >= 0) {
                E before = removeAt(queue, last);
                last = -1;
                if (before == null) {
                    next--;
                } else {
                    moved = moved == null ? new ArrayDeque<E>() : moved;
                    moved.add(before);
                }
            } else if (lastMoved != null) {
                removeObject(queue, lastMoved);
                lastMoved = null;
            } else {
                throw new IllegalStateException();
            }
            changes = queue.changes;
        }
    }
}
