package java.lang;

/** equals, hashCode and toString are declared so that they can be overridden; the machine has only the constructor. */
public class Object {
    public Object() {}
    public native boolean equals(Object other);
    public native int hashCode();
    public native String toString();
}
