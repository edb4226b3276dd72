package java.util.function;

/** What makes a value of another. */
public interface Function<T, R> {
    R apply(T value);

    default <V> Function<V, R> compose(Function<? super V, ? extends T> before) {
        if (before == null) {
            throw new NullPointerException();
        }
        Function<T, R> last = this;
        return new Function<V, R>() {
            @Override
            public R apply(V value) {
                return last.apply(before.apply(value));
            }
        };
    }

    default <V> Function<T, V> andThen(Function<? super R, ? extends V> next) {
        if (next == null) {
            throw new NullPointerException();
        }
        Function<T, R> first = this;
        return new Function<T, V>() {
            @Override
            public V apply(T value) {
                return next.apply(first.apply(value));
            }
        };
    }

    static <T> Function<T, T> identity() {
        return new Function<T, T>() {
            @Override
            public T apply(T value) {
                return value;
            }
        };
    }
}
