package java.lang;

public class CloneNotSupportedException extends Exception {
    public CloneNotSupportedException() {}
    public CloneNotSupportedException(String message) {}
    public CloneNotSupportedException(String message, Throwable cause) {}
}
