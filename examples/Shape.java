/** An interface with a constant and a default method. */
public interface Shape {
    int SIDES = 4;

    int area();

    default int twice() {
        return 2 * area();
    }
}
