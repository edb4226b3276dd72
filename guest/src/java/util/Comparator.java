package java.util;

import java.util.function.Function;
import java.util.function.ToIntFunction;
import java.util.function.ToLongFunction;

/** An order. */
public interface Comparator<T> {
    int compare(T a, T b);

    boolean equals(Object other);

    default Comparator<T> reversed() {
        return Collections.reverseOrder(this);
    }

    default Comparator<T> thenComparing(Comparator<? super T> next) {
        return new Orders.Then<T>(this, Objects.requireNonNull(next));
    }

    default <U> Comparator<T> thenComparing(Function<? super T, ? extends U> key, Comparator<? super U> order) {
        return thenComparing(comparing(key, order));
    }

    default <U extends Comparable<? super U>> Comparator<T> thenComparing(Function<? super T, ? extends U> key) {
        return thenComparing(comparing(key));
    }

    default Comparator<T> thenComparingInt(ToIntFunction<? super T> key) {
        return thenComparing(comparingInt(key));
    }

    default Comparator<T> thenComparingLong(ToLongFunction<? super T> key) {
        return thenComparing(comparingLong(key));
    }

    @SuppressWarnings("unchecked")
    static <T extends Comparable<? super T>> Comparator<T> naturalOrder() {
        return (Comparator<T>) (Comparator<?>) Orders.NATURAL;
    }

    static <T extends Comparable<? super T>> Comparator<T> reverseOrder() {
        return Collections.reverseOrder();
    }

    static <T> Comparator<T> nullsFirst(Comparator<? super T> order) {
        return new Orders.Nulls<T>(true, order);
    }

    static <T> Comparator<T> nullsLast(Comparator<? super T> order) {
        return new Orders.Nulls<T>(false, order);
    }

    static <T, U> Comparator<T> comparing(Function<? super T, ? extends U> key, Comparator<? super U> order) {
        return new Orders.ByResult<T, U>(Objects.requireNonNull(key), Objects.requireNonNull(order));
    }

    static <T, U extends Comparable<? super U>> Comparator<T> comparing(Function<? super T, ? extends U> key) {
        return new Orders.ByResult<T, U>(Objects.requireNonNull(key), null);
    }

    static <T> Comparator<T> comparingInt(ToIntFunction<? super T> key) {
        return new Orders.ByInt<T>(Objects.requireNonNull(key));
    }

    static <T> Comparator<T> comparingLong(ToLongFunction<? super T> key) {
        return new Orders.ByLong<T>(Objects.requireNonNull(key));
    }
}
