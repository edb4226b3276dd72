/** A reader of sums with brackets, by one method a rule, with errors as exceptions of the program's own. */
public class Calculator {
    static class Wrong extends RuntimeException {
        Wrong(String message) {
            super(message);
        }
    }

    private final String text;
    private int at;

    Calculator(String text) {
        this.text = text;
    }

    private char next() {
        while (at < text.length() && text.charAt(at) == ' ') {
            at++;
        }
        return at < text.length() ? text.charAt(at) : '\0';
    }

    private long sum() {
        long value = product();
        while (next() == '+' || next() == '-') {
            char sign = text.charAt(at++);
            long other = product();
            value = sign == '+' ? value + other : value - other;
        }
        return value;
    }

    private long product() {
        long value = factor();
        while (next() == '*' || next() == '/') {
            char sign = text.charAt(at++);
            long other = factor();
            value = sign == '*' ? value * other : value / other;
        }
        return value;
    }

    private long factor() {
        char c = next();
        if (c == '-') {
            at++;
            return -factor();
        }
        if (c == '(') {
            at++;
            long value = sum();
            if (next() != ')') {
                throw new Wrong("no bracket at " + at);
            }
            at++;
            return value;
        }
        if (c < '0' || c > '9') {
            throw new Wrong("no number at " + at);
        }
        long value = 0;
        while (at < text.length() && text.charAt(at) >= '0' && text.charAt(at) <= '9') {
            value = value * 10 + (text.charAt(at++) - '0');
        }
        return value;
    }

    long value() {
        long value = sum();
        if (next() != '\0') {
            throw new Wrong("more at " + at);
        }
        return value;
    }

    public static void main(String[] words) {
        String[] lines = {
            "1 + 2 * 3", "(1 + 2) * 3", "-(4 - 10) / 4", "2 * (3 + (4 - 1) * 5) - 7", "9223372036854775807 + 1", "12 / (3 - 3)",
            "1 +", "(2", "3 4", "", "7 / -2 * 2",
        };
        for (String line : lines) {
            try {
                System.out.println(line + " = " + new Calculator(line).value());
            } catch (Wrong fault) {
                System.out.println(line + ": " + fault.getMessage());
            } catch (ArithmeticException fault) {
                System.out.println(line + ": divided by zero");
            }
        }
    }
}
