package java.util;

/** A walk over elements, as it was before Iterator. */
public interface Enumeration<E> {
    boolean hasMoreElements();

    E nextElement();
}
