package java.lang;

public class Throwable implements java.io.Serializable {
    public Throwable() {}
    public Throwable(String message) {}
    public Throwable(String message, Throwable cause) {}
    public native String getMessage();
    public native Throwable getCause();
    public final native void addSuppressed(Throwable other);
}
