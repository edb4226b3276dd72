/** StringBuilder: appending in loops, what it answers, toString twice, and a builder that goes on after it. */
public class Builders {
    static String joined(int[] numbers, String between) {
        StringBuilder text = new StringBuilder("[");
        for (int i = 0; i < numbers.length; i++) {
            if (i > 0) {
                text.append(between);
            }
            text.append(numbers[i]);
        }
        return text.append(']').toString();
    }

    public static void main(String[] words) {
        System.out.println(joined(new int[] {3, -1, 2147483647, -2147483648}, ", "));
        System.out.println(joined(new int[0], ", "));
        StringBuilder text = new StringBuilder();
        StringBuilder same = text.append(true).append(false).append('x').append(-5L).append((String) null);
        System.out.println(text == same);
        String before = text.toString();
        text.append(" and more");
        System.out.println(before + "|" + text.toString() + "|" + text.length());
        System.out.println(before == text.toString());
        System.out.println(text.toString().equals(text.toString()));
        for (int i = 0; i < 2000; i++) {
            text.append(i % 10);
        }
        System.out.println(text.length());
        String whole = text.toString();
        int sum = 0;
        for (int i = 0; i < whole.length(); i++) {
            sum = sum * 31 + whole.charAt(i);
        }
        System.out.println(sum);
        text.append(text.toString());
        System.out.println(text.length());
    }
}
