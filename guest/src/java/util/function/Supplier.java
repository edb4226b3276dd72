package java.util.function;

/** What gives a value. */
public interface Supplier<T> {
    T get();
}
