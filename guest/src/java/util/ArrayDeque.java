package java.util;

/** A queue of two ends in an array that is used as a ring. It holds no null. */
public class ArrayDeque<E> extends AbstractCollection<E> implements Deque<E>, Cloneable, java.io.Serializable {
    /** Its length is a power of two. */
    Object[] ring;
    int first;
    int size;

    public ArrayDeque() {
        ring = new Object[16];
    }

    public ArrayDeque(int elements) {
        int length = 8;
        while (length < elements) {
            length <<= 1;
        }
        ring = new Object[length];
    }

    public ArrayDeque(Collection<? extends E> others) {
        this(others.size());
        addAll(others);
    }

    private int place(int index) {
        return first + index & ring.length - 1;
    }

    @SuppressWarnings("unchecked")
    private E at(int index) {
        return (E) ring[first + index & ring.length - 1];
    }

    @SuppressWarnings("unchecked")
    static <E> E at(ArrayDeque<E> deque, int index) {
        return (E) deque.ring[deque.first + index & deque.ring.length - 1];
    }

    private void makeRoom() {
        if (size == ring.length) {
            Object[] longer = new Object[2 * size];
            for (int i = 0; i < size; i++) {
                longer[i] = at(i);
            }
            ring = longer;
            first = 0;
        }
    }

    @Override
    public void addFirst(E element) {
        Objects.requireNonNull(element);
        makeRoom();
        first = place(-1);
        ring[first] = element;
        size++;
    }

    @Override
    public void addLast(E element) {
        Objects.requireNonNull(element);
        makeRoom();
        ring[place(size)] = element;
        size++;
    }

    @Override
    public boolean offerFirst(E element) {
        addFirst(element);
        return true;
    }

    @Override
    public boolean offerLast(E element) {
        addLast(element);
        return true;
    }

    @Override
    public boolean add(E element) {
        addLast(element);
        return true;
    }

    @Override
    public boolean offer(E element) {
        addLast(element);
        return true;
    }

    @Override
    public void push(E element) {
        addFirst(element);
    }

    @Override
    public E peekFirst() {
        return size == 0 ? null : at(0);
    }

    @Override
    public E peekLast() {
        return size == 0 ? null : at(size - 1);
    }

    @Override
    public E peek() {
        return peekFirst();
    }

    @Override
    public E pollFirst() {
        if (size == 0) {
            return null;
        }
        E element = at(0);
        ring[first] = null;
        first = place(1);
        size--;
        return element;
    }

    @Override
    public E pollLast() {
        if (size == 0) {
            return null;
        }
        size--;
        E element = at(size);
        ring[place(size)] = null;
        return element;
    }

    @Override
    public E poll() {
        return pollFirst();
    }

    private E present(E element) {
        if (element == null) {
            throw new NoSuchElementException();
        }
        return element;
    }

    @Override
    public E getFirst() {
        return present(peekFirst());
    }

    @Override
    public E getLast() {
        return present(peekLast());
    }

    @Override
    public E element() {
        return present(peekFirst());
    }

    @Override
    public E removeFirst() {
        return present(pollFirst());
    }

    @Override
    public E removeLast() {
        return present(pollLast());
    }

    @Override
    public E remove() {
        return present(pollFirst());
    }

    @Override
    public E pop() {
        return present(pollFirst());
    }

    /** Takes out the element at an index: those behind it move up by one. */
    static void removeAt(ArrayDeque<?> deque, int index) {
        Object[] ring = deque.ring;
        for (int i = index; i < deque.size; i++) {
            ring[deque.first + i & ring.length - 1] = i + 1 < deque.size ? ring[deque.first + i + 1 & ring.length - 1] : null;
        }
        deque.size--;
    }

    @Override
    public boolean removeFirstOccurrence(Object element) {
        for (int i = 0; i < size && element != null; i++) {
            if (Values.same(element, at(i))) {
                removeAt(this, i);
                return true;
            }
        }
        return false;
    }

    @Override
    public boolean removeLastOccurrence(Object element) {
        for (int i = size - 1; i >= 0 && element != null; i--) {
            if (Values.same(element, at(i))) {
                removeAt(this, i);
                return true;
            }
        }
        return false;
    }

    @Override
    public boolean remove(Object element) {
        return removeFirstOccurrence(element);
    }

    @Override
    public int size() {
        return size;
    }

    @Override
    public boolean isEmpty() {
        return size == 0;
    }

    @Override
    public void clear() {
        while (size > 0) {
            pollFirst();
        }
    }

    @Override
    public Iterator<E> iterator() {
        return new RingWalk<E>(this, 0, 1);
    }

    @Override
    public Iterator<E> descendingIterator() {
        return new RingWalk<E>(this, size - 1, -1);
    }

    public ArrayDeque<E> clone() {
        return new ArrayDeque<E>(this);
    }

    /** A walk in either direction. */
    static final class RingWalk<E> implements Iterator<E> {
        final ArrayDeque<E> deque;
        final int step;
        int next;
        int left;
        int last = -1;

        RingWalk(ArrayDeque<E> deque, int next, int step) {
            this.deque = deque;
            this.next = next;
            this.step = step;
            this.left = deque.size;
        }

        @Override
        public boolean hasNext() {
            return left > 0;
        }

        @Override
        public E next() {
            if (left <= 0) {
                throw new NoSuchElementException();
            }
            if (next < 0 || next >= deque.size) {
                throw new ConcurrentModificationException();
            }
            E element = at(deque, next);
            last = next;
            next += step;
            left--;
            return element;
        }

        @Override
        public void remove() {
            if (last < 0) {
                throw new IllegalStateException();
            }
            removeAt(deque, last);
            if (step > 0) {
                next--;
            }
            last = -1;
        }
    }
}
