package java.util.function;

/** What makes a value of two others of its type. */
public interface BinaryOperator<T> extends BiFunction<T, T, T> {
}
