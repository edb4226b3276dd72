package java.util;

/** A set by its iterator and its size. */
public abstract class AbstractSet<E> extends AbstractCollection<E> implements Set<E> {
    protected AbstractSet() {}

    @Override
    public boolean equals(Object other) {
        return other == this
            || other instanceof Set && ((Set<?>) other).size() == size() && containsAll((Set<?>) other);
    }

    @Override
    public int hashCode() {
        int sum = 0;
        for (Iterator<E> all = iterator(); all.hasNext(); ) {
            sum += Values.hash(all.next());
        }
        return sum;
    }

    /** The smaller of the two is gone over. */
    @Override
    public boolean removeAll(Collection<?> others) {
        if (size() <= others.size()) {
            return super.removeAll(others);
        }
        boolean changed = false;
        for (Object other : others) {
            changed |= remove(other);
        }
        return changed;
    }
}
