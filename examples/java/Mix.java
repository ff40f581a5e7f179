/** Something of all that the profile of class files has, for tools/javap_agrees.py; it is not run. */
public class Mix extends Thread implements Runnable {
    static final int LIMIT = 70000;
    static final long FAR = -3000000000L;
    static final byte SMALL = -7;
    private volatile int count;
    protected transient long sum;
    Mix next;
    static int[] numbers = new int[3];

    interface Shape {
        int sides();
    }

    static class Square implements Shape {
        public int sides() {
            return 4;
        }
    }

    abstract static class Base {
        abstract long value(byte b, char c, short s, int[][] grid, Object o);

        native void outside();
    }

    public static void main() {
        int total = 0;
        for (int i = 0; i < numbers.length; i++) {
            numbers[i] = i * 2 - (i / 3) % 5 << 1 >> 2 >>> 1 & 7 | 8 ^ 1;
            total += numbers[i];
        }
        long far = FAR + total;
        far = -far * 3 / 2 % 7 << 2 >> 1 >>> 3 & 5 | 9 ^ 2;
        count(total, far);
    }

    static int count(int n, long m) {
        switch (n) {
            case 0:
                return 1;
            case 1:
                return 5;
            case 3:
                return 7;
            default:
                break;
        }
        switch (n) {
            case -100000:
                return 2;
            case 5:
                return LIMIT;
            case 100000:
                return 3;
        }
        try {
            return n / (int) m;
        } catch (ArithmeticException e) {
            return m > 3 ? -1 : 0;
        } finally {
            numbers = null;
        }
    }

    synchronized Object mixed(Shape shape, Object o, byte[] bytes, char[] chars, short[] shorts, long[] longs, Object[] all) {
        count++;
        sum += shape.sides();
        synchronized (this) {
            bytes[0] = (byte) count;
            chars[1] = (char) count;
            shorts[2] = (short) count;
            longs[3] = sum++;
            all[4] = new Square();
        }
        if (o instanceof Square && o != this && next == null) {
            return ((Square) o).sides() == bytes[0] + chars[1] + shorts[2] + (int) longs[3] ? all[0] : new Object[2][];
        }
        if (o == null) {
            throw new IllegalThreadStateException();
        }
        return next;
    }

    static int many(int a, int b, int c, int d, int e, int f, int g, int h) {
        long l0 = a, l1 = b, l2 = c, l3 = d;
        Object x = null, y = x;
        return (int) (l0 + l1 + l2 + l3) + e + f + g + h + (x == y ? 0 : 1);
    }

    public void run() {
        super.run();
    }
}
