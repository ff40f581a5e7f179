import static vm.Sys.*;

/**
 * Loops over ints and longs with each operator, conversion and comparison, long enough that they run as register code,
 * and with the rows of steps that it carries out at once.
 */
public class Loops {
    static int ints(int n) {
        int s = 1, t = -7;
        for (int i = 1; i <= n; i++) {
            s = s * 31 + i ^ s >>> 3;
            t = (t << 5) - t + (s & 255) | i;
            t = t - s / i + s % i;
            t = t >> 1 ^ -s;
            if (s < t) s += 3;
            if (s <= i) t ^= 5;
            if (s > 1000000) s -= 999;
            if (t >= 12345) t -= 77;
            if (s == t) s++;
            if (s != i) t--;
            if (t == 0) t = i;
            if ((t & 1) != 0) s ^= 9;
            if (t < 0) s += 1;
            if (s >= 0) t += 2;
            if (s > 0) t -= 1;
            if (t <= 0) s -= 4;
        }
        return s ^ t;
    }

    static long longs(int n) {
        long x = 88172645463325252L, y = -3;
        for (int i = 1; i <= n; i++) {
            x = x ^ x << 13;
            x = x ^ x >>> 7;
            x = x ^ x << 17;
            y = y * 31L + x - (y >> 3) | 1L;
            y = y + x / y - x % y;
            y = -y & 1152921504606846975L;
            if (x < y) y += 11L;
            if (x == y) x--;
            if (y >= 1000L) y = y - 5L;
        }
        return x ^ y;
    }

    static long mixed(int n) {
        long sum = 0;
        int c = 40000;
        for (int i = 0; i < n; i++) {
            byte b = (byte) (c + i);
            short h = (short) (c * i);
            char k = (char) (c - i * 70001);
            sum += (long) b * h + k;
            c = (int) (sum >>> 5) ^ c;
            long l = i;
            sum ^= l << i;
        }
        return sum;
    }

    static int divided(int n, int by) {
        int s = 0;
        for (int i = n; i > -n; i--) {
            s += n / (i - by);
        }
        return s;
    }

    /** Operators and comparisons of two locals, of a local and a constant, and of a local and what is on the stack. */
    static int pairs(int n) {
        int a = 7, b = -3;
        for (int i = 0; i < n; i++) {
            int c = a * b;
            int d = a - b;
            a = a + b;
            b = b - i;
            c = (c ^ i) - a;
            d = (d | c) * b + i;
            c = (a * 5 & 1023 | 64) << 2;
            d = d * 3 - 1 ^ 77;
            b = (d >> 2) + (c >>> 1) * (a & d);
            c = a - 4 << 1 >> 3 >>> 1;
            if (a != b) d += a + b;
            if (a == b) d++;
            if (c >= d) a += 1;
            if (c > d) a ^= c;
            if (c <= d) b += 2;
            if (d != 12) b ^= d;
            if (d == 12) b--;
            if (d <= 100) a -= 1;
            if (d > 7) a += 3;
            a = a ^ d;
            b = b & c | d * a;
        }
        return a * b;
    }

    static long longPairs(int n) {
        long a = 7, b = -3;
        for (int i = 0; i < n; i++) {
            long c = a * b;
            long d = a - b;
            a = a + b;
            b = b - d;
            c = (c ^ i) - a;
            d = (d | c) * b + a;
            c = (a * 5 & 1023 | 64) << 2;
            d = d * 3 - 1 ^ 77;
            b = (d >> 2) + (c >>> 1) * (a & d);
            c = a - 4 << 1 >> 3 >>> 1;
            if (a != b) d += a + b;
            if (c >= d) a += 1;
            if (c > d) a ^= c;
            if (c <= d) b += 2;
            if (d != 12) b ^= d;
            if (d == 12) b--;
            if (d < 100) a -= 1;
            if (d > 7) a += 3;
            if (d <= 7000) a *= 3;
            if ((a & d) < (b | d)) a -= b * d;
            if ((a & d) != (b ^ d)) a = a ^ d;
            if ((a & 3L) == (b & 3L)) b = b | d;
            if ((a & 7L) >= (b & 7L)) b = b & d;
            if ((a & 5L) > (b & 5L)) b = b * d;
            if ((a & 9L) <= (b & 9L)) d = b - a;
            b = b & c | d * a;
        }
        return a * b;
    }

    static void main() {
        for (int n = 0; n < 40; n += 13) {
            print(ints(n));
            printl(longs(n));
            printl(mixed(n));
        }
        print(pairs(40));
        printl(longPairs(40));
        print(ints(300));
        printl(longs(300));
        printl(mixed(300));
        try {
            print(divided(20, 3));
        } catch (ArithmeticException e) {
            print(-1);
        }
    }
}
