package java.util;

/** A collection by its iterator and its size. */
public abstract class AbstractCollection<E> implements Collection<E> {
    protected AbstractCollection() {}

    public abstract Iterator<E> iterator();

    public abstract int size();

    @Override
    public boolean isEmpty() {
        return size() == 0;
    }

    @Override
    public boolean contains(Object element) {
        for (Iterator<E> all = iterator(); all.hasNext(); ) {
            if (Values.same(element, all.next())) {
                return true;
            }
        }
        return false;
    }

    @Override
    public Object[] toArray() {
        Object[] array = new Object[size()];
        int i = 0;
        for (Iterator<E> all = iterator(); all.hasNext(); ) {
            array[i++] = all.next();
        }
        return array;
    }

    @Override
    @SuppressWarnings("unchecked")
    public <T> T[] toArray(T[] array) {
        int size = size();
        Object[] filled = array.length < size ? Values.arrayLike(array, size) : array;
        int i = 0;
        for (Iterator<E> all = iterator(); all.hasNext(); ) {
            filled[i++] = all.next();
        }
        if (i < filled.length) {
            filled[i] = null;
        }
        return (T[]) filled;
    }

    @Override
    public boolean add(E element) {
        throw new UnsupportedOperationException();
    }

    @Override
    public boolean remove(Object element) {
        for (Iterator<E> all = iterator(); all.hasNext(); ) {
            if (Values.same(element, all.next())) {
                all.remove();
                return true;
            }
        }
        return false;
    }

    @Override
    public boolean containsAll(Collection<?> others) {
        for (Object other : others) {
            if (!contains(other)) {
                return false;
            }
        }
        return true;
    }

    @Override
    public boolean addAll(Collection<? extends E> others) {
        boolean changed = false;
        for (E other : others) {
            changed |= add(other);
        }
        return changed;
    }

    @Override
    public boolean removeAll(Collection<?> others) {
        return keep(Objects.requireNonNull(others), false);
    }

    @Override
    public boolean retainAll(Collection<?> others) {
        return keep(Objects.requireNonNull(others), true);
    }

    private boolean keep(Collection<?> others, boolean within) {
        boolean changed = false;
        for (Iterator<E> all = iterator(); all.hasNext(); ) {
            if (others.contains(all.next()) != within) {
                all.remove();
                changed = true;
            }
        }
        return changed;
    }

    @Override
    public void clear() {
        for (Iterator<E> all = iterator(); all.hasNext(); ) {
            all.next();
            all.remove();
        }
    }

    @Override
    public String toString() {
        StringBuilder text = new StringBuilder("[");
        boolean first = true;
        for (Iterator<E> all = iterator(); all.hasNext(); ) {
            E element = all.next();
            text.append(first ? "" : ", ").append(element == this ? "(this Collection)" : Values.text(element));
            first = false;
        }
        return text.append(']').toString();
    }
}
