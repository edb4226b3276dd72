package java.util;

/** A list in an array, as it was before ArrayList: each method takes the monitor of the list. */
public class Vector<E> extends AbstractList<E> implements List<E>, RandomAccess, Cloneable, java.io.Serializable {
    protected Object[] elementData;
    protected int elementCount;
    /** By so many the array grows; where it isn't above 0, it becomes twice as long. */
    protected int capacityIncrement;

    public Vector(int capacity, int increment) {
        if (capacity < 0) {
            throw new IllegalArgumentException();
        }
        elementData = new Object[capacity];
        capacityIncrement = increment;
    }

    public Vector(int capacity) {
        this(capacity, 0);
    }

    public Vector() {
        this(10, 0);
    }

    public Vector(Collection<? extends E> others) {
        elementData = others.toArray();
        elementCount = elementData.length;
    }

    // THE ARRAY

    public synchronized int capacity() {
        return elementData.length;
    }

    public synchronized void ensureCapacity(int capacity) {
        if (capacity > 0) {
            modCount++;
            makeRoom(capacity);
        }
    }

    private void makeRoom(int least) {
        int length = elementData.length;
        if (least > length) {
            int grown = length + (capacityIncrement > 0 ? capacityIncrement : length);
            elementData = Arrays.copyOf(elementData, Math.max(least, grown));
        }
    }

    public synchronized void trimToSize() {
        modCount++;
        if (elementCount < elementData.length) {
            elementData = Arrays.copyOf(elementData, elementCount);
        }
    }

    public synchronized void setSize(int size) {
        modCount++;
        makeRoom(size);
        for (int i = size; i < elementCount; i++) {
            elementData[i] = null;
        }
        elementCount = size;
    }

    public synchronized void copyInto(Object[] array) {
        ArrayList.copy(elementData, 0, array, 0, elementCount);
    }

    private void checkIndex(int index, int bound) {
        if (index < 0 || index >= bound) {
            throw new ArrayIndexOutOfBoundsException();
        }
    }

    // ELEMENTS

    @Override
    public synchronized int size() {
        return elementCount;
    }

    @Override
    public synchronized boolean isEmpty() {
        return elementCount == 0;
    }

    @SuppressWarnings("unchecked")
    public synchronized E elementAt(int index) {
        checkIndex(index, elementCount);
        return (E) elementData[index];
    }

    @Override
    public synchronized E get(int index) {
        return elementAt(index);
    }

    public synchronized E firstElement() {
        if (elementCount == 0) {
            throw new NoSuchElementException();
        }
        return elementAt(0);
    }

    public synchronized E lastElement() {
        if (elementCount == 0) {
            throw new NoSuchElementException();
        }
        return elementAt(elementCount - 1);
    }

    @Override
    public synchronized E set(int index, E element) {
        E old = elementAt(index);
        elementData[index] = element;
        return old;
    }

    public synchronized void setElementAt(E element, int index) {
        set(index, element);
    }

    @Override
    public synchronized boolean add(E element) {
        addElement(element);
        return true;
    }

    public synchronized void addElement(E element) {
        insertElementAt(element, elementCount);
    }

    @Override
    public void add(int index, E element) {
        insertElementAt(element, index);
    }

    public synchronized void insertElementAt(E element, int index) {
        checkIndex(index, elementCount + 1);
        modCount++;
        makeRoom(elementCount + 1);
        for (int i = elementCount; i > index; i--) {
            elementData[i] = elementData[i - 1];
        }
        elementData[index] = element;
        elementCount++;
    }

    @Override
    public synchronized boolean addAll(Collection<? extends E> others) {
        return addAll(elementCount, others);
    }

    @Override
    public synchronized boolean addAll(int index, Collection<? extends E> others) {
        checkIndex(index, elementCount + 1);
        Object[] added = others.toArray();
        modCount++;
        makeRoom(elementCount + added.length);
        for (int i = elementCount - 1; i >= index; i--) {
            elementData[i + added.length] = elementData[i];
        }
        ArrayList.copy(added, 0, elementData, index, added.length);
        elementCount += added.length;
        return added.length != 0;
    }

    @Override
    public synchronized E remove(int index) {
        E old = elementAt(index);
        removeElementAt(index);
        return old;
    }

    public synchronized void removeElementAt(int index) {
        checkIndex(index, elementCount);
        removeRange(index, index + 1);
    }

    @Override
    public boolean remove(Object element) {
        return removeElement(element);
    }

    public synchronized boolean removeElement(Object element) {
        int index = indexOf(element);
        if (index >= 0) {
            removeElementAt(index);
        }
        return index >= 0;
    }

    @Override
    protected synchronized void removeRange(int from, int to) {
        modCount++;
        ArrayList.copy(elementData, to, elementData, from, elementCount - to);
        int left = elementCount - (to - from);
        for (int i = left; i < elementCount; i++) {
            elementData[i] = null;
        }
        elementCount = left;
    }

    public synchronized void removeAllElements() {
        removeRange(0, elementCount);
    }

    @Override
    public void clear() {
        removeAllElements();
    }

    // LOOKING

    @Override
    public boolean contains(Object element) {
        return indexOf(element, 0) >= 0;
    }

    @Override
    public int indexOf(Object element) {
        return indexOf(element, 0);
    }

    public synchronized int indexOf(Object element, int from) {
        for (int i = from; i < elementCount; i++) {
            if (Values.same(element, elementData[i])) {
                return i;
            }
        }
        return -1;
    }

    @Override
    public synchronized int lastIndexOf(Object element) {
        return lastIndexOf(element, elementCount - 1);
    }

    public synchronized int lastIndexOf(Object element, int from) {
        if (from >= elementCount) {
            throw new IndexOutOfBoundsException();
        }
        for (int i = from; i >= 0; i--) {
            if (Values.same(element, elementData[i])) {
                return i;
            }
        }
        return -1;
    }

    public Enumeration<E> elements() {
        Vector<E> all = this;
        return new Enumeration<E>() {
            int next = 0;

            @Override
            public boolean hasMoreElements() {
                return next < all.elementCount;
            }

            @Override
            public E nextElement() {
                synchronized (all) {
                    if (next >= all.elementCount) {
                        throw new NoSuchElementException();
                    }
                    return all.elementAt(next++);
                }
            }
        };
    }

    @Override
    public synchronized Object[] toArray() {
        return Arrays.copyOf(elementData, elementCount);
    }

    public synchronized Object clone() {
        return new Vector<E>(this);
    }
}
