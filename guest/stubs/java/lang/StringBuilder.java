package java.lang;

public final class StringBuilder {
    public StringBuilder() {}
    public StringBuilder(String text) {}
    public native int length();
    public native String toString();
    public native StringBuilder append(String text);
    public native StringBuilder append(int number);
    public native StringBuilder append(long number);
    public native StringBuilder append(char unit);
    public native StringBuilder append(boolean truth);
}
