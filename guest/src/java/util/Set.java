package java.util;

/** Elements of which no two are equal. */
public interface Set<E> extends Collection<E> {
    int size();

    boolean isEmpty();

    boolean contains(Object element);

    Iterator<E> iterator();

    Object[] toArray();

    <T> T[] toArray(T[] array);

    boolean add(E element);

    boolean remove(Object element);

    boolean containsAll(Collection<?> others);

    boolean addAll(Collection<? extends E> others);

    boolean retainAll(Collection<?> others);

    boolean removeAll(Collection<?> others);

    void clear();

    boolean equals(Object other);

    int hashCode();
}
