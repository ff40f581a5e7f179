import static vm.Sys.*;

/** Fibonacci numbers by powers of a matrix of longs, and a triangle of binomial coefficients. */
public class Matrix {
    static final long MODULUS = 1000000007L;

    static long[][] square(int n) {
        long[][] m = new long[n][];
        for (int i = 0; i < n; i++) {
            m[i] = new long[n];
        }
        return m;
    }

    static long[][] times(long[][] a, long[][] b) {
        int n = a.length;
        long[][] c = square(n);
        for (int i = 0; i < n; i++) {
            for (int j = 0; j < n; j++) {
                for (int k = 0; k < n; k++) {
                    c[i][j] = (c[i][j] + a[i][k] * b[k][j]) % MODULUS;
                }
            }
        }
        return c;
    }

    static long[][] power(long[][] a, long n) {
        long[][] r = square(a.length);
        for (int i = 0; i < r.length; i++) {
            r[i][i] = 1;
        }
        for (; n > 0; n >>= 1, a = times(a, a)) {
            if ((n & 1) == 1) {
                r = times(r, a);
            }
        }
        return r;
    }

    static void main() {
        long[][] step = square(2);
        step[0][0] = step[0][1] = step[1][0] = 1;
        printl(power(step, 10)[0][1]);
        printl(power(step, 90)[0][1]);
        printl(power(step, 5000000000L)[0][1]);

        int[][] rows = new int[8][];
        for (int i = 0; i < rows.length; i++) {
            rows[i] = new int[i + 1];
            rows[i][0] = rows[i][i] = 1;
            for (int j = 1; j < i; j++) {
                rows[i][j] = rows[i - 1][j - 1] + rows[i - 1][j];
            }
        }
        int[] last = rows[rows.length - 1];
        for (int i = 0; i < last.length; i++) {
            print(last[i]);
        }
        try {
            print(rows[3][4]);
        } catch (ArrayIndexOutOfBoundsException e) {
            print(-1);
        }
    }
}
