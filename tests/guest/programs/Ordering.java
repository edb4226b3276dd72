import java.util.AbstractMap;
import java.util.Arrays;
import java.util.Collections;
import java.util.Comparator;
import java.util.List;
import java.util.Map;
import java.util.Objects;
import java.util.function.BiConsumer;
import java.util.function.BiFunction;
import java.util.function.Consumer;
import java.util.function.Function;
import java.util.function.Predicate;
import java.util.function.Supplier;
import java.util.function.ToIntFunction;
import java.util.function.ToLongFunction;
import java.util.function.UnaryOperator;

/** Comparator, the orders of entries, Objects, and the functions. */
public class Ordering {
    static final Integer[] NUMBERS = {15, 3, 22, 41, 8, 33, 5, 25, 18, 11, 2, 52};

    static final Function<Integer, Integer> DIGIT = new Function<Integer, Integer>() {
        public Integer apply(Integer number) {
            return number % 10;
        }
    };
    static final Function<Integer, Integer> TENS = new Function<Integer, Integer>() {
        public Integer apply(Integer number) {
            return number / 10;
        }
    };
    static final ToIntFunction<Integer> INT_DIGIT = new ToIntFunction<Integer>() {
        public int applyAsInt(Integer number) {
            return number % 10;
        }
    };
    static final ToLongFunction<Integer> LONG_TENS = new ToLongFunction<Integer>() {
        public long applyAsLong(Integer number) {
            return number / 10;
        }
    };

    static void sorted(Comparator<Integer> order) {
        Integer[] all = Arrays.copyOf(NUMBERS, NUMBERS.length);
        Arrays.sort(all, order);
        for (int i = 0; i < all.length; i++) {
            System.out.println(all[i].intValue());
        }
    }

    public static void main(String[] arguments) {
        Comparator<Integer> natural = Comparator.naturalOrder();
        Comparator<Integer> against = Comparator.reverseOrder();
        sorted(natural);
        sorted(against);
        sorted(natural.reversed());
        sorted(against.reversed());
        sorted(Collections.<Integer>reverseOrder(null));
        sorted(Collections.reverseOrder(Comparator.comparing(DIGIT)));
        sorted(Comparator.comparing(DIGIT));
        sorted(Comparator.comparing(DIGIT).reversed());
        sorted(Comparator.comparing(DIGIT).reversed().reversed());
        sorted(Comparator.comparing(DIGIT, against));
        sorted(Comparator.comparing(DIGIT).thenComparing(TENS));
        sorted(Comparator.comparing(DIGIT).thenComparing(TENS, against));
        sorted(Comparator.comparing(TENS).thenComparing(against));
        sorted(Comparator.comparingInt(INT_DIGIT).thenComparingLong(LONG_TENS));
        sorted(Comparator.comparingLong(LONG_TENS).thenComparingInt(INT_DIGIT));
        sorted(Comparator.comparingInt(INT_DIGIT));
        nulls();
        entries();
        objects();
        functions();
        for (int which = 0; which < 6; which++) {
            try {
                switch (which) {
                    case 0: natural.compare(null, 1); break;
                    case 1: natural.compare(1, null); break;
                    case 2: against.compare(1, null); break;
                    case 3: against.compare(null, 1); break;
                    case 4: Comparator.comparing((Function<Integer, Integer>) null); break;
                    default: natural.thenComparing((Comparator<Integer>) null);
                }
                System.out.println(0);
            } catch (NullPointerException e) {
                System.out.println(1);
            }
        }
    }

    static void nulls() {
        List<Comparator<Integer>> orders = Arrays.asList(
            Comparator.nullsFirst(Comparator.<Integer>naturalOrder()),
            Comparator.nullsLast(Comparator.<Integer>naturalOrder()),
            Comparator.nullsFirst((Comparator<Integer>) null),
            Comparator.nullsFirst(Comparator.<Integer>naturalOrder()).reversed(),
            Comparator.nullsLast((Comparator<Integer>) null).reversed(),
            Comparator.nullsLast(Comparator.comparing(DIGIT)).thenComparing(Comparator.<Integer>reverseOrder()));
        Integer[] some = {null, 3, 12, 13};
        for (Comparator<Integer> order : orders) {
            for (int i = 0; i < some.length; i++) {
                for (int j = 0; j < some.length; j++) {
                    System.out.println(order.compare(some[i], some[j]) < 0 ? -1 : order.compare(some[i], some[j]) > 0 ? 1 : 0);
                }
                if (some[i] == null && order == orders.get(5)) {
                    break;
                }
            }
        }
    }

    static Map.Entry<Integer, Integer> entry(int key, int value) {
        return new AbstractMap.SimpleEntry<Integer, Integer>(key, value);
    }

    static void entries() {
        Map.Entry<Integer, Integer> a = entry(1, 9);
        Map.Entry<Integer, Integer> b = entry(2, 8);
        System.out.println(Map.Entry.<Integer, Integer>comparingByKey().compare(a, b));
        System.out.println(Map.Entry.<Integer, Integer>comparingByValue().compare(a, b));
        System.out.println(Map.Entry.<Integer, Integer>comparingByKey(Comparator.<Integer>reverseOrder()).compare(a, b));
        System.out.println(Map.Entry.<Integer, Integer>comparingByValue(Comparator.<Integer>reverseOrder()).compare(a, b));
        System.out.println(Map.Entry.<Integer, Integer>comparingByKey().reversed().compare(a, b));
    }

    static void objects() {
        System.out.println(Objects.equals(1000, 1000));
        System.out.println(Objects.equals(null, 1000));
        System.out.println(Objects.equals(null, null));
        System.out.println(Objects.hashCode(null));
        System.out.println(Objects.hashCode(77L));
        System.out.println(Objects.hash(1, 2L, 'c', null, true));
        System.out.println(Objects.compare(1, 2, Comparator.<Integer>naturalOrder()));
        System.out.println(Objects.compare(null, null, Comparator.<Integer>naturalOrder()));
        System.out.println(Objects.isNull(null));
        System.out.println(Objects.nonNull(null));
        System.out.println(Objects.requireNonNull(5).intValue());
        System.out.println(Objects.requireNonNull(6, "six").intValue());
        final String message = "made";
        Supplier<String> made = new Supplier<String>() {
            public String get() {
                return message;
            }
        };
        System.out.println(Objects.requireNonNull(7, made).intValue());
        System.out.println(Objects.toString("a") == "a");
        System.out.println(Objects.toString(null, "none") == "none");
        System.out.println(Objects.toString("b", "none") == "b");
        try {
            Objects.requireNonNull(null);
        } catch (NullPointerException e) {
            System.out.println(e.getMessage() == null);
        }
        try {
            Objects.requireNonNull(null, "text");
        } catch (NullPointerException e) {
            System.out.println(e.getMessage() == "text");
        }
        try {
            Objects.requireNonNull(null, made);
        } catch (NullPointerException e) {
            System.out.println(e.getMessage() == "made");
        }
    }

    static void functions() {
        System.out.println(DIGIT.andThen(TENS).apply(77).intValue());
        System.out.println(DIGIT.compose(TENS).apply(777).intValue());
        System.out.println(Function.<Integer>identity().apply(9).intValue());
        System.out.println(UnaryOperator.<Integer>identity().apply(8).intValue());
        final long[] seen = new long[1];
        Consumer<Integer> add = new Consumer<Integer>() {
            public void accept(Integer number) {
                seen[0] += number;
            }
        };
        Consumer<Integer> twice = new Consumer<Integer>() {
            public void accept(Integer number) {
                seen[0] *= 2;
            }
        };
        add.andThen(twice).accept(5);
        System.out.println(seen[0]);
        BiConsumer<Integer, Integer> both = new BiConsumer<Integer, Integer>() {
            public void accept(Integer a, Integer b) {
                seen[0] = seen[0] * 3 + a * b;
            }
        };
        both.andThen(both).accept(2, 7);
        System.out.println(seen[0]);
        BiFunction<Integer, Integer, Integer> times = new BiFunction<Integer, Integer, Integer>() {
            public Integer apply(Integer a, Integer b) {
                return a * b;
            }
        };
        System.out.println(times.andThen(TENS).apply(12, 12).intValue());
        Predicate<Integer> even = new Predicate<Integer>() {
            public boolean test(Integer number) {
                return number % 2 == 0;
            }
        };
        Predicate<Integer> large = new Predicate<Integer>() {
            public boolean test(Integer number) {
                return number > 20;
            }
        };
        for (int i = 0; i < NUMBERS.length; i++) {
            System.out.println((even.and(large).test(NUMBERS[i]) ? 1 : 0) + (even.or(large).test(NUMBERS[i]) ? 2 : 0) + (even.negate().test(NUMBERS[i]) ? 4 : 0));
        }
    }
}
