package vm;

/** The machine's own prints, for `java`: the machine has its own in place of this class. */
public class Sys {
    public static void print(int i) {
        line(Integer.toString(i));
    }

    public static void printl(long l) {
        line(Long.toString(l));
    }

    public static void putc(int c) {
        System.out.write(c & 255);
    }

    private static void line(String s) {
        System.out.print(s + "\n");
    }
}
