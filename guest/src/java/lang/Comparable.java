package java.lang;

/** An order that a class has by itself. */
public interface Comparable<T> {
    int compareTo(T other);
}
