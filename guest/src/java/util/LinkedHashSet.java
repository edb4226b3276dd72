package java.util;

/** A hash set that is gone over in the order in which its elements came. */
public class LinkedHashSet<E> extends HashSet<E> implements Set<E>, Cloneable, java.io.Serializable {
    public LinkedHashSet() {
        super(new LinkedHashMap<E, Object>());
    }

    public LinkedHashSet(int capacity) {
        super(new LinkedHashMap<E, Object>(capacity));
    }

    public LinkedHashSet(Collection<? extends E> others) {
        super(new LinkedHashMap<E, Object>(Math.max(11, 2 * others.size())));
        addAll(others);
    }

    @Override
    public Object clone() {
        return new LinkedHashSet<E>(this);
    }
}
