/**
 * A parser: it makes sums and products as texts, cuts each text into pieces, makes a tree of them, works it out and drops it
 * all. Each piece is a text of its own; none lives for longer than one line.
 */
public class Calculator {
    private static final int LINES = 40;

    /** A number or an operator with two sides. */
    static final class Term {
        final char operator;
        final String digits;
        final Term left;
        final Term right;

        Term(String digits) {
            this.operator = '0';
            this.digits = digits;
            this.left = null;
            this.right = null;
        }

        Term(char operator, Term left, Term right) {
            this.operator = operator;
            this.digits = null;
            this.left = left;
            this.right = right;
        }

        long value() {
            switch (operator) {
                case '+':
                    return left.value() + right.value();
                case '-':
                    return left.value() - right.value();
                case '*':
                    return left.value() * right.value();
                default:
                    long value = 0;
                    for (int i = 0; i < digits.length(); i++) {
                        value = 10 * value + digits.charAt(i) - '0';
                    }
                    return value;
            }
        }
    }

    /** Cuts the next piece off a text. */
    static final class Pieces {
        private final String text;
        private int at;

        Pieces(String text) {
            this.text = text;
        }

        /** The next char, or 0 at the end. */
        char peek() {
            return at < text.length() ? text.charAt(at) : 0;
        }

        /** A number as a whole, or an operator or parenthesis. */
        String next() {
            StringBuilder piece = new StringBuilder();
            char first = peek();
            do {
                piece.append(peek());
                at++;
            } while (isDigit(first) && isDigit(peek()));
            return piece.toString();
        }

        private static boolean isDigit(char c) {
            return '0' <= c && c <= '9';
        }
    }

    static Term sum(Pieces pieces) {
        Term sum = product(pieces);
        while (pieces.peek() == '+' || pieces.peek() == '-') {
            char operator = pieces.next().charAt(0);
            sum = new Term(operator, sum, product(pieces));
        }
        return sum;
    }

    static Term product(Pieces pieces) {
        Term product = factor(pieces);
        while (pieces.peek() == '*') {
            char operator = pieces.next().charAt(0);
            product = new Term(operator, product, factor(pieces));
        }
        return product;
    }

    static Term factor(Pieces pieces) {
        if (pieces.peek() != '(') {
            return new Term(pieces.next());
        }
        pieces.next();
        Term inner = sum(pieces);
        pieces.next();
        return inner;
    }

    /** The text of line i, which is joined part by part: the further down, the longer. */
    static String line(int i) {
        String text = "" + (1 + i % 9);
        for (int part = 0; part < 2 + i / 4; part++) {
            switch ((i + part) % 3) {
                case 0:
                    text += "+" + part % 10 + "7";
                    break;
                case 1:
                    text += "*(42-" + i % 10 + ")";
                    break;
                default:
                    text += "-5";
            }
        }
        return text;
    }

    public static void main(String[] arguments) {
        long total = 0;
        for (int i = 0; i < LINES; i++) {
            String line = line(i);
            long value = sum(new Pieces(line)).value();
            total += value;
            if (i % 16 == 0) {
                System.out.println(line + " = " + value);
            }
        }
        System.out.println(LINES + " lines, in all " + total);
    }
}
