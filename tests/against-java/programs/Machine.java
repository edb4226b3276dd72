/** A small machine that runs programs of its own: dispatch by a switch, a stack in an array, and faults as exceptions. */
public class Machine {
    static final int PUSH = 0;
    static final int ADD = 1;
    static final int SUBTRACT = 2;
    static final int MULTIPLY = 3;
    static final int COPY = 4;
    static final int SWAP = 5;
    static final int JUMP_UNLESS_ZERO = 6;
    static final int PRINT = 7;
    static final int STOP = 8;

    private final int[] stack = new int[8];
    private int depth;

    private void push(int n) {
        stack[depth++] = n;
    }

    private int pop() {
        return stack[--depth];
    }

    int run(int... code) {
        int at = 0;
        int steps = 0;
        while (true) {
            steps++;
            switch (code[at++]) {
                case PUSH: push(code[at++]); break;
                case ADD: push(pop() + pop()); break;
                case SUBTRACT: int less = pop(); push(pop() - less); break;
                case MULTIPLY: push(pop() * pop()); break;
                case COPY: int copied = pop(); push(copied); push(copied); break;
                case SWAP: int top = pop(); int below = pop(); push(top); push(below); break;
                case JUMP_UNLESS_ZERO: int to = code[at++]; if (pop() != 0) at = to; break;
                case PRINT: System.out.println(pop()); break;
                case STOP: return steps;
                default: throw new IllegalArgumentException("code " + code[at - 1] + " at " + (at - 1));
            }
        }
    }

    static void tried(int... code) {
        try {
            System.out.println(new Machine().run(code) + " steps");
        } catch (IllegalArgumentException fault) {
            System.out.println(fault.getMessage());
        } catch (IndexOutOfBoundsException fault) {
            System.out.println("outside");
        }
    }

    public static void main(String[] words) {
        tried(PUSH, 2, PUSH, 40, ADD, PRINT, STOP);
        tried(PUSH, 1, PUSH, 10, SWAP, PUSH, 2, MULTIPLY, SWAP, PUSH, 1, SUBTRACT, COPY, JUMP_UNLESS_ZERO, 4, PRINT, PRINT, STOP);
        tried(PUSH, 5, COPY, PRINT, PUSH, 1, SUBTRACT, COPY, JUMP_UNLESS_ZERO, 2, STOP);
        tried(ADD, STOP);
        tried(PUSH, 1, 77);
        tried(PUSH, 1, PUSH, 0, SUBTRACT);
        tried(PUSH, 1, COPY, COPY, COPY, COPY, COPY, COPY, COPY, COPY, STOP);
    }
}
