package java.lang;

public class ClassCastException extends RuntimeException {
    public ClassCastException() {}
    public ClassCastException(String message) {}
    public ClassCastException(String message, Throwable cause) {}
}
