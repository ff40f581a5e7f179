import static vm.Sys.*;

/** Ints and longs at their edges: sums that wrap, quotients, shifts, and what is kept of a number in a smaller type. */
public class Edges {
    static final int[] INTS = {0, 1, -1, 7, -7, 33, 70000, Integer.MAX_VALUE, Integer.MIN_VALUE};

    static void pair(int a, int b) {
        print(a + b);
        print(a - b);
        print(a * b);
        print(a << b);
        print(a >> b);
        print(a >>> b);
        print((a & b) + (a | b) - (a ^ b));
        if (b != 0) {
            print(a / b);
            print(a % b);
        }
    }

    static void longs(long a, int b) {
        long c = a * b + a;
        printl(c);
        printl(c << b);
        printl(c >>> b);
        printl(-c ^ a);
        if (b != 0) {
            printl(c / b);
            printl(c % b);
        }
        print(c < a ? -1 : c > a ? 1 : 0);
    }

    static void small(int a) {
        print((byte) a);
        print((char) a);
        print((short) a);
        print((int) ((long) a * a));
    }

    static void main() {
        for (int i = 0; i < INTS.length; i++) {
            pair(INTS[i], INTS[INTS.length - 1 - i]);
            longs(0x123456789abcdefL + INTS[i], INTS[i]);
            small(INTS[i]);
        }
        pair(Integer.MIN_VALUE, -1);
        longs(Long.MIN_VALUE, -1);
        printl(Long.MIN_VALUE / -1L);
    }
}
