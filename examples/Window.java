import java.util.ArrayDeque;
import java.util.ArrayList;
import java.util.Random;

/**
 * Messages of three lifetimes: what is read at once, what stands in a window of the last 64, and what is kept. It uses the
 * collections of guest/.
 */
public class Window {
    private static class Message {
        final int[] body;

        Message(int length) {
            body = new int[length];
        }
    }

    private static class Cursor {
        private final Message message;
        private int at;

        Cursor(Message message) {
            this.message = message;
        }

        int next() {
            return message.body[at++];
        }
    }

    public static void main(String[] arguments) {
        Random random = new Random(1);
        ArrayDeque<Message> window = new ArrayDeque<Message>();
        ArrayList<Message> kept = new ArrayList<Message>();
        int read = 0;
        for (int i = 0; i < 3000; i++) {
            Message message = new Message(4 + random.nextInt(12));
            message.body[1] = i;
            window.add(message);
            if (window.size() > 64) {
                window.poll();
            }
            Cursor cursor = new Cursor(message);
            read += cursor.next() + cursor.next();
            if (random.nextInt(50) == 0) {
                kept.add(message);
            }
        }
        System.out.println("read " + read + ", " + window.size() + " in the window, " + kept.size() + " kept");
    }
}
