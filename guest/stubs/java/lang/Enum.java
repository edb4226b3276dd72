package java.lang;

public abstract class Enum<E extends Enum<E>> {
    protected Enum(String name, int ordinal) {}
    public static native <T extends Enum<T>> T valueOf(Class<T> type, String name);
}
