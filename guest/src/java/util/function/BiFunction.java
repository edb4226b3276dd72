package java.util.function;

/** What makes a value of two others. */
public interface BiFunction<T, U, R> {
    R apply(T first, U second);

    default <V> BiFunction<T, U, V> andThen(Function<? super R, ? extends V> next) {
        if (next == null) {
            throw new NullPointerException();
        }
        BiFunction<T, U, R> before = this;
        return new BiFunction<T, U, V>() {
            @Override
            public V apply(T first, U second) {
                return next.apply(before.apply(first, second));
            }
        };
    }
}
