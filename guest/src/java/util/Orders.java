package java.util;

import java.util.function.Function;
import java.util.function.ToIntFunction;
import java.util.function.ToLongFunction;

/** The orders that Comparator, Collections and Map.Entry make. */
final class Orders {
    private Orders() {}

    static final Comparator<Object> NATURAL = new Natural();
    static final Comparator<Object> AGAINST = new Against();

    static final class Natural implements Comparator<Object>, java.io.Serializable {
        @Override
        public int compare(Object a, Object b) {
            return Values.compare(a, Objects.requireNonNull(b));
        }

        @Override
        public Comparator<Object> reversed() {
            return AGAINST;
        }
    }

    static final class Against implements Comparator<Object>, java.io.Serializable {
        @Override
        public int compare(Object a, Object b) {
            return Values.compare(b, Objects.requireNonNull(a));
        }

        @Override
        public Comparator<Object> reversed() {
            return NATURAL;
        }
    }

    static final class Reversed<T> implements Comparator<T>, java.io.Serializable {
        final Comparator<T> order;

        Reversed(Comparator<T> order) {
            this.order = order;
        }

        @Override
        public int compare(T a, T b) {
            return order.compare(b, a);
        }

        @Override
        public Comparator<T> reversed() {
            return order;
        }
    }

    static final class Then<T> implements Comparator<T>, java.io.Serializable {
        final Comparator<T> first;
        final Comparator<? super T> next;

        Then(Comparator<T> first, Comparator<? super T> next) {
            this.first = first;
            this.next = next;
        }

        @Override
        public int compare(T a, T b) {
            int result = first.compare(a, b);
            return result != 0 ? result : next.compare(a, b);
        }
    }

    static final class Nulls<T> implements Comparator<T>, java.io.Serializable {
        final boolean first;
        final Comparator<? super T> order;

        Nulls(boolean first, Comparator<? super T> order) {
            this.first = first;
            this.order = order;
        }

        @Override
        public int compare(T a, T b) {
            if (a == null || b == null) {
                return a == b ? 0 : (a == null) == first ? -1 : 1;
            }
            return order == null ? 0 : order.compare(a, b);
        }

        @Override
        public Comparator<T> thenComparing(Comparator<? super T> next) {
            Objects.requireNonNull(next);
            return new Nulls<T>(first, order == null ? next : new Then<T>(new Widened<T>(order), next));
        }

        @Override
        public Comparator<T> reversed() {
            return new Nulls<T>(!first, order == null ? null : new Reversed<T>(new Widened<T>(order)));
        }
    }

    /** An order on more, as one of these alone. */
    static final class Widened<T> implements Comparator<T> {
        final Comparator<? super T> order;

        Widened(Comparator<? super T> order) {
            this.order = order;
        }

        @Override
        public int compare(T a, T b) {
            return order.compare(a, b);
        }
    }

    static final class ByResult<T, U> implements Comparator<T>, java.io.Serializable {
        final Function<? super T, ? extends U> key;
        final Comparator<? super U> order;

        ByResult(Function<? super T, ? extends U> key, Comparator<? super U> order) {
            this.key = key;
            this.order = order;
        }

        @Override
        public int compare(T a, T b) {
            return Values.compare(order, key.apply(a), key.apply(b));
        }
    }

    static final class ByInt<T> implements Comparator<T>, java.io.Serializable {
        final ToIntFunction<? super T> key;

        ByInt(ToIntFunction<? super T> key) {
            this.key = key;
        }

        @Override
        public int compare(T a, T b) {
            return Integer.compare(key.applyAsInt(a), key.applyAsInt(b));
        }
    }

    static final class ByLong<T> implements Comparator<T>, java.io.Serializable {
        final ToLongFunction<? super T> key;

        ByLong(ToLongFunction<? super T> key) {
            this.key = key;
        }

        @Override
        public int compare(T a, T b) {
            return Long.compare(key.applyAsLong(a), key.applyAsLong(b));
        }
    }

    static final class ByKey<K, V> implements Comparator<Map.Entry<K, V>>, java.io.Serializable {
        final Comparator<? super K> order;

        ByKey(Comparator<? super K> order) {
            this.order = order;
        }

        @Override
        public int compare(Map.Entry<K, V> a, Map.Entry<K, V> b) {
            return order.compare(a.getKey(), b.getKey());
        }
    }

    static final class ByValue<K, V> implements Comparator<Map.Entry<K, V>>, java.io.Serializable {
        final Comparator<? super V> order;

        ByValue(Comparator<? super V> order) {
            this.order = order;
        }

        @Override
        public int compare(Map.Entry<K, V> a, Map.Entry<K, V> b) {
            return order.compare(a.getValue(), b.getValue());
        }
    }
}
