package java.util;

import java.util.function.Predicate;

/** A group of elements. */
public interface Collection<E> extends Iterable<E> {
    int size();

    boolean isEmpty();

    boolean contains(Object element);

    Iterator<E> iterator();

    Object[] toArray();

    <T> T[] toArray(T[] array);

    boolean add(E element);

    boolean remove(Object element);

    boolean containsAll(Collection<?> others);

    boolean addAll(Collection<? extends E> others);

    boolean removeAll(Collection<?> others);

    boolean retainAll(Collection<?> others);

    void clear();

    boolean equals(Object other);

    int hashCode();

    default boolean removeIf(Predicate<? super E> condition) {
        if (condition == null) {
            throw new NullPointerException();
        }
        boolean changed = false;
        for (Iterator<E> all = iterator(); all.hasNext(); ) {
            if (condition.test(all.next())) {
                all.remove();
                changed = true;
            }
        }
        return changed;
    }
}
