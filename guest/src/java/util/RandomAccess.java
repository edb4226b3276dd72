package java.util;

/** A list whose elements are as fast by index as by a walk. */
public interface RandomAccess {
}
