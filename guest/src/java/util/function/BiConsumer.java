package java.util.function;

/** What is done with two values. */
public interface BiConsumer<T, U> {
    void accept(T first, U second);

    default BiConsumer<T, U> andThen(BiConsumer<? super T, ? super U> next) {
        if (next == null) {
            throw new NullPointerException();
        }
        BiConsumer<T, U> before = this;
        return new BiConsumer<T, U>() {
            @Override
            public void accept(T first, U second) {
                before.accept(first, second);
                next.accept(first, second);
            }
        };
    }
}
