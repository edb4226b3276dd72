package elephant;

/**
 * A class whose equals, hashCode and toString the collections can call. The machine has none of these three in Object, so
 * a call through Object finds none, also where the class of the object has one; a call through this interface does.
 */
public interface Value {
    boolean equals(Object other);

    int hashCode();

    String toString();
}
