package java.util.function;

/** What makes a value of another one of its type. */
public interface UnaryOperator<T> extends Function<T, T> {
    static <T> UnaryOperator<T> identity() {
        return new UnaryOperator<T>() {
            @Override
            public T apply(T value) {
                return value;
            }
        };
    }
}
