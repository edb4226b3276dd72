package java.util;

import java.util.function.Consumer;
import java.util.function.Predicate;
import java.util.function.UnaryOperator;

/** A list in an array, which is replaced by one of half as much again where it is full. */
public class ArrayList<E> extends AbstractList<E> implements List<E>, RandomAccess, Cloneable, java.io.Serializable {
    private static final Object[] NONE = {};
    private static final int FIRST_CAPACITY = 10;

    private Object[] elements;
    private int size;

    public ArrayList() {
        elements = NONE;
    }

    public ArrayList(int capacity) {
        if (capacity < 0) {
            throw new IllegalArgumentException();
        }
        elements = capacity == 0 ? NONE : new Object[capacity];
    }

    public ArrayList(Collection<? extends E> others) {
        elements = others.toArray();
        size = elements.length;
    }

    public void ensureCapacity(int capacity) {
        if (capacity > elements.length && !(elements == NONE && capacity <= FIRST_CAPACITY)) {
            modCount++;
            grow(capacity);
        }
    }

    private void grow(int least) {
        int capacity = Math.max(least, elements == NONE ? FIRST_CAPACITY : elements.length + (elements.length >> 1));
        Object[] grown = new Object[capacity];
        copy(elements, 0, grown, 0, size);
        elements = grown;
    }

    /** Copies elements; where the two are one array and overlap, to a lower place. */
    static void copy(Object[] from, int first, Object[] to, int place, int length) {
        for (int i = 0; i < length; i++) {
            to[place + i] = from[first + i];
        }
    }

    public void trimToSize() {
        modCount++;
        if (size < elements.length) {
            elements = size == 0 ? NONE : toArray();
        }
    }

    @Override
    public int size() {
        return size;
    }

    @Override
    public boolean isEmpty() {
        return size == 0;
    }

    @Override
    @SuppressWarnings("unchecked")
    public E get(int index) {
        Values.checkIndex(index, size);
        return (E) elements[index];
    }

    @Override
    @SuppressWarnings("unchecked")
    public E set(int index, E element) {
        Values.checkIndex(index, size);
        E old = (E) elements[index];
        elements[index] = element;
        return old;
    }

    @Override
    public boolean add(E element) {
        modCount++;
        if (size == elements.length) {
            grow(size + 1);
        }
        elements[size++] = element;
        return true;
    }

    @Override
    public void add(int index, E element) {
        Values.checkIndex(index, size + 1);
        modCount++;
        open(index, 1);
        elements[index] = element;
    }

    /** Makes room for so many elements at an index. */
    private void open(int index, int room) {
        if (size + room > elements.length) {
            grow(size + room);
        }
        for (int i = size - 1; i >= index; i--) {
            elements[i + room] = elements[i];
        }
        size += room;
    }

    @Override
    public boolean addAll(Collection<? extends E> others) {
        return addAll(size, others);
    }

    @Override
    public boolean addAll(int index, Collection<? extends E> others) {
        Values.checkIndex(index, size + 1);
        Object[] added = others.toArray();
        modCount++;
        open(index, added.length);
        copy(added, 0, elements, index, added.length);
        return added.length != 0;
    }

    @Override
    public E remove(int index) {
        E old = get(index);
        modCount++;
        close(index, index + 1);
        return old;
    }

    /** Takes out the elements from an index up to another. */
    private void close(int from, int to) {
        copy(elements, to, elements, from, size - to);
        int left = size - (to - from);
        for (int i = left; i < size; i++) {
            elements[i] = null;
        }
        size = left;
    }

    @Override
    public boolean remove(Object element) {
        int index = indexOf(element);
        if (index < 0) {
            return false;
        }
        remove(index);
        return true;
    }

    @Override
    protected void removeRange(int from, int to) {
        if (from > to) {
            throw new IndexOutOfBoundsException();
        }
        modCount++;
        close(from, to);
    }

    @Override
    public void clear() {
        modCount++;
        close(0, size);
    }

    @Override
    public boolean contains(Object element) {
        return indexOf(element) >= 0;
    }

    @Override
    public int indexOf(Object element) {
        for (int i = 0; i < size; i++) {
            if (Values.same(element, elements[i])) {
                return i;
            }
        }
        return -1;
    }

    @Override
    public int lastIndexOf(Object element) {
        for (int i = size - 1; i >= 0; i--) {
            if (Values.same(element, elements[i])) {
                return i;
            }
        }
        return -1;
    }

    @Override
    public Object[] toArray() {
        Object[] array = new Object[size];
        copy(elements, 0, array, 0, size);
        return array;
    }

    @Override
    @SuppressWarnings("unchecked")
    public <T> T[] toArray(T[] array) {
        Object[] filled = array.length < size ? Values.arrayLike(array, size) : array;
        copy(elements, 0, filled, 0, size);
        if (size < filled.length) {
            filled[size] = null;
        }
        return (T[]) filled;
    }

    @Override
    public boolean removeAll(Collection<?> others) {
        return keep(Objects.requireNonNull(others), null, false);
    }

    @Override
    public boolean retainAll(Collection<?> others) {
        return keep(Objects.requireNonNull(others), null, true);
    }

    @Override
    public boolean removeIf(Predicate<? super E> condition) {
        return keep(null, Objects.requireNonNull(condition), false);
    }

    /** Keeps the elements that are in the collection, or fulfil the condition, or those that don't. */
    @SuppressWarnings("unchecked")
    private boolean keep(Collection<?> others, Predicate<? super E> condition, boolean within) {
        boolean[] kept = new boolean[size];
        int changes = modCount;
        int left = 0;
        for (int i = 0; i < kept.length; i++) {
            kept[i] = (others != null ? others.contains(elements[i]) : condition.test((E) elements[i])) == within;
            left += kept[i] ? 1 : 0;
        }
        if (changes != modCount) {
            throw new ConcurrentModificationException();
        }
        if (left == size) {
            return false;
        }
        int at = 0;
        for (int i = 0; i < kept.length; i++) {
            if (kept[i]) {
                elements[at++] = elements[i];
            }
        }
        modCount++;
        close(left, size);
        return true;
    }

    @Override
    @SuppressWarnings("unchecked")
    public void forEach(Consumer<? super E> action) {
        Objects.requireNonNull(action);
        int changes = modCount;
        for (int i = 0; changes == modCount && i < size; i++) {
            action.accept((E) elements[i]);
        }
        if (changes != modCount) {
            throw new ConcurrentModificationException();
        }
    }

    @Override
    @SuppressWarnings("unchecked")
    public void replaceAll(UnaryOperator<E> operator) {
        Objects.requireNonNull(operator);
        int changes = modCount;
        for (int i = 0; changes == modCount && i < size; i++) {
            elements[i] = operator.apply((E) elements[i]);
        }
        if (changes != modCount) {
            throw new ConcurrentModificationException();
        }
    }

    @Override
    @SuppressWarnings("unchecked")
    public void sort(Comparator<? super E> order) {
        int changes = modCount;
        Arrays.sort((E[]) elements, 0, size, order);
        if (changes != modCount) {
            throw new ConcurrentModificationException();
        }
        modCount++;
    }

    public Object clone() {
        return new ArrayList<E>(this);
    }
}
