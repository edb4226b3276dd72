package java.util.function;

/** What makes a long of a value. */
public interface ToLongFunction<T> {
    long applyAsLong(T value);
}
