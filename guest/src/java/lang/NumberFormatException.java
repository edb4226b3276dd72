package java.lang;

/** A text that is no number. */
public class NumberFormatException extends IllegalArgumentException {
    public NumberFormatException() {}

    public NumberFormatException(String message) {
        super(message);
    }

    static NumberFormatException of(String text) {
        if (text == null) {
            return new NumberFormatException("null");
        }
        return new NumberFormatException(new StringBuilder("For input string: \"").append(text).append('"').toString());
    }
}
