import java.util.Random;

/** The documented generator. */
public class Randoms {
    /** One that makes next public. */
    static final class Open extends Random {
        Open(long seed) {
            super(seed);
        }

        int bits(int bits) {
            return next(bits);
        }
    }

    public static void main(String[] arguments) {
        long[] seeds = {0, 1, -1, 42, 0x5DEECE66DL, Long.MAX_VALUE, Long.MIN_VALUE, 1234567890123L};
        for (int i = 0; i < seeds.length; i++) {
            Random random = new Random(seeds[i]);
            for (int j = 0; j < 20; j++) {
                System.out.println(random.nextInt());
                System.out.println(random.nextLong());
                System.out.println(random.nextBoolean());
                System.out.println(random.nextInt(1 + j * j));
                System.out.println(random.nextInt(1 << j));
                System.out.println(random.nextInt(Integer.MAX_VALUE - j));
                System.out.println(random.nextInt((1 << 30) + 1 + j));
            }
            byte[] bytes = new byte[11];
            random.nextBytes(bytes);
            for (int j = 0; j < bytes.length; j++) {
                System.out.println(bytes[j]);
            }
            random.setSeed(seeds[i] + 3);
            System.out.println(random.nextLong());
            Open open = new Open(seeds[i]);
            for (int bits = 1; bits <= 32; bits++) {
                System.out.println(open.bits(bits));
            }
        }
        try {
            new Random().nextInt(0);
            System.out.println(-1);
        } catch (IllegalArgumentException e) {
            System.out.println(1);
        }
    }
}
