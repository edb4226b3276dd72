package java.util;

/** A list by get and size, and, where it can be changed, by set, add and remove at an index. */
public abstract class AbstractList<E> extends AbstractCollection<E> implements List<E> {
    /** How often the list became longer or shorter. */
    protected transient int modCount = 0;

    protected AbstractList() {}

    public abstract E get(int index);

    @Override
    public E set(int index, E element) {
        throw new UnsupportedOperationException();
    }

    @Override
    public void add(int index, E element) {
        throw new UnsupportedOperationException();
    }

    @Override
    public E remove(int index) {
        throw new UnsupportedOperationException();
    }

    @Override
    public boolean add(E element) {
        add(size(), element);
        return true;
    }

    @Override
    public boolean addAll(int index, Collection<? extends E> others) {
        Values.checkIndex(index, size() + 1);
        boolean changed = false;
        for (E other : others) {
            add(index++, other);
            changed = true;
        }
        return changed;
    }

    @Override
    public int indexOf(Object element) {
        for (ListIterator<E> all = listIterator(); all.hasNext(); ) {
            if (Values.same(element, all.next())) {
                return all.previousIndex();
            }
        }
        return -1;
    }

    @Override
    public int lastIndexOf(Object element) {
        for (ListIterator<E> all = listIterator(size()); all.hasPrevious(); ) {
            if (Values.same(element, all.previous())) {
                return all.nextIndex();
            }
        }
        return -1;
    }

    @Override
    public void clear() {
        removeRange(0, size());
    }

    protected void removeRange(int from, int to) {
        ListIterator<E> all = listIterator(from);
        for (int i = from; i < to; i++) {
            all.next();
            all.remove();
        }
    }

    @Override
    public Iterator<E> iterator() {
        return new Walk<E>(this, 0);
    }

    @Override
    public ListIterator<E> listIterator() {
        return listIterator(0);
    }

    @Override
    public ListIterator<E> listIterator(int index) {
        Values.checkIndex(index, size() + 1);
        return new Walk<E>(this, index);
    }

    @Override
    public List<E> subList(int from, int to) {
        if (from < 0 || to > size()) {
            throw new IndexOutOfBoundsException();
        }
        if (from > to) {
            throw new IllegalArgumentException();
        }
        return new Part<E>(this, from, to);
    }

    @Override
    public boolean equals(Object other) {
        if (other == this) {
            return true;
        }
        if (!(other instanceof List)) {
            return false;
        }
        Iterator<E> mine = iterator();
        Iterator<?> its = ((List<?>) other).iterator();
        while (mine.hasNext() && its.hasNext()) {
            if (!Values.same(mine.next(), its.next())) {
                return false;
            }
        }
        return !mine.hasNext() && !its.hasNext();
    }

    @Override
    public int hashCode() {
        int hash = 1;
        for (Iterator<E> all = iterator(); all.hasNext(); ) {
            hash = 31 * hash + Values.hash(all.next());
        }
        return hash;
    }

    /** A walk by index. */
    static final class Walk<E> implements ListIterator<E> {
        final AbstractList<E> list;
        int next;
        int last = -1;
        int changes;

        Walk(AbstractList<E> list, int next) {
            this.list = list;
            this.next = next;
            this.changes = list.modCount;
        }

        private void check() {
            if (changes != list.modCount) {
                throw new ConcurrentModificationException();
            }
        }

        @Override
        public boolean hasNext() {
            return next != list.size();
        }

        @Override
        public E next() {
            check();
            if (next >= list.size()) {
                throw new NoSuchElementException();
            }
            E element = list.get(next);
            last = next++;
            return element;
        }

        @Override
        public boolean hasPrevious() {
            return next != 0;
        }

        @Override
        public E previous() {
            check();
            if (next <= 0) {
                throw new NoSuchElementException();
            }
            E element = list.get(next - 1);
            last = --next;
            return element;
        }

        @Override
        public int nextIndex() {
            return next;
        }

        @Override
        public int previousIndex() {
            return next - 1;
        }

        @Override
        public void remove() {
            if (last < 0) {
                throw new IllegalStateException();
            }
            check();
            list.remove(last);
            if (last < next) {
                next--;
            }
            last = -1;
            changes = list.modCount;
        }

        @Override
        public void set(E element) {
            if (last < 0) {
                throw new IllegalStateException();
            }
            check();
            list.set(last, element);
            changes = list.modCount;
        }

        @Override
        public void add(E element) {
            check();
            list.add(next++, element);
            last = -1;
            changes = list.modCount;
        }
    }

    /** The elements of a list from an index up to another. */
    static final class Part<E> extends AbstractList<E> implements RandomAccess {
        final AbstractList<E> list;
        final int from;
        int size;

        Part(AbstractList<E> list, int from, int to) {
            this.list = list;
            this.from = from;
            this.size = to - from;
            this.modCount = list.modCount;
        }

        private void check() {
            if (modCount != list.modCount) {
                throw new ConcurrentModificationException();
            }
        }

        private void grown(int elements) {
            modCount = list.modCount;
            size += elements;
        }

        @Override
        public int size() {
            check();
            return size;
        }

        @Override
        public E get(int index) {
            Values.checkIndex(index, size);
            check();
            return list.get(from + index);
        }

        @Override
        public E set(int index, E element) {
            Values.checkIndex(index, size);
            check();
            return list.set(from + index, element);
        }

        @Override
        public void add(int index, E element) {
            Values.checkIndex(index, size + 1);
            check();
            list.add(from + index, element);
            grown(1);
        }

        @Override
        public E remove(int index) {
            Values.checkIndex(index, size);
            check();
            E element = list.remove(from + index);
            grown(-1);
            return element;
        }

        @Override
        public boolean addAll(Collection<? extends E> others) {
            return addAll(size, others);
        }

        @Override
        public boolean addAll(int index, Collection<? extends E> others) {
            Values.checkIndex(index, size + 1);
            check();
            int added = others.size();
            if (added == 0) {
                return false;
            }
            list.addAll(from + index, others);
            grown(added);
            return true;
        }

        @Override
        protected void removeRange(int first, int to) {
            check();
            list.removeRange(from + first, from + to);
            grown(first - to);
        }
    }
}
