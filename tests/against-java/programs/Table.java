/** A hash table from strings to ints, with its own hash of letters, growing, and removal by marks. */
public class Table {
    private String[] keys = new String[4];
    private int[] values = new int[4];
    private boolean[] gone = new boolean[4];
    private int used;

    private static int hash(String text) {
        int hash = 17;
        for (int i = 0; i < text.length(); i++) {
            hash = hash * 31 + text.charAt(i);
        }
        return hash & 0x7fffffff;
    }

    private int place(String key) {
        int at = hash(key) % keys.length;
        while (keys[at] != null && !keys[at].equals(key)) {
            at = (at + 1) % keys.length;
        }
        return at;
    }

    private void grow() {
        String[] oldKeys = keys;
        int[] oldValues = values;
        boolean[] oldGone = gone;
        keys = new String[oldKeys.length * 2];
        values = new int[keys.length];
        gone = new boolean[keys.length];
        used = 0;
        for (int i = 0; i < oldKeys.length; i++) {
            if (oldKeys[i] != null && !oldGone[i]) {
                put(oldKeys[i], oldValues[i]);
            }
        }
    }

    void put(String key, int value) {
        if (used * 2 >= keys.length) {
            grow();
        }
        int at = place(key);
        if (keys[at] == null) {
            used++;
        }
        keys[at] = key;
        values[at] = value;
        gone[at] = false;
    }

    int get(String key, int otherwise) {
        int at = place(key);
        return keys[at] == null || gone[at] ? otherwise : values[at];
    }

    void remove(String key) {
        gone[place(key)] = true;
    }

    public static void main(String[] words) {
        Table table = new Table();
        String text = "the quick brown fox jumps over the lazy dog and the fox sleeps over there as the dog does ";
        String word = "";
        for (int i = 0; i < text.length(); i++) {
            char c = text.charAt(i);
            if (c == ' ') {
                table.put(word, table.get(word, 0) + 1);
                word = "";
            } else {
                word += c;
            }
        }
        table.remove("lazy");
        String[] asked = {"the", "fox", "dog", "lazy", "cat", "there", ""};
        for (String key : asked) {
            System.out.println(key + ": " + table.get(key, -1));
        }
        System.out.println(table.keys.length + " " + table.used);
    }
}
