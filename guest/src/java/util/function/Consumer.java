package java.util.function;

/** What is done with a value. */
public interface Consumer<T> {
    void accept(T value);

    default Consumer<T> andThen(Consumer<? super T> next) {
        if (next == null) {
            throw new NullPointerException();
        }
        Consumer<T> first = this;
        return new Consumer<T>() {
            @Override
            public void accept(T value) {
                first.accept(value);
                next.accept(value);
            }
        };
    }
}
