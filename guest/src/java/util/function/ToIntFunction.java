package java.util.function;

/** What makes an int of a value. */
public interface ToIntFunction<T> {
    int applyAsInt(T value);
}
