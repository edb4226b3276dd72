package java.lang;

public final class String {
    private String() {}
    public native int length();
    public native char charAt(int index);
    public native boolean equals(Object other);
}
