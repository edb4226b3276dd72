package java.util.function;

/** A condition on a value. */
public interface Predicate<T> {
    boolean test(T value);

    default Predicate<T> and(Predicate<? super T> other) {
        if (other == null) {
            throw new NullPointerException();
        }
        Predicate<T> first = this;
        return new Predicate<T>() {
            @Override
            public boolean test(T value) {
                return first.test(value) && other.test(value);
            }
        };
    }

    default Predicate<T> or(Predicate<? super T> other) {
        if (other == null) {
            throw new NullPointerException();
        }
        Predicate<T> first = this;
        return new Predicate<T>() {
            @Override
            public boolean test(T value) {
                return first.test(value) || other.test(value);
            }
        };
    }

    default Predicate<T> negate() {
        Predicate<T> first = this;
        return new Predicate<T>() {
            @Override
            public boolean test(T value) {
                return !first.test(value);
            }
        };
    }
}
