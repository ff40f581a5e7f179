import static vm.Sys.*;

/** A machine in the machine: a stack, a few instructions, and two switches that tell them apart. */
public class Calculator {
    static class Failure extends RuntimeException {
        final int code;

        Failure(int code) {
            this.code = code;
        }
    }

    final long[] stack = new long[8];
    int depth;

    void push(long l) {
        if (depth == stack.length) {
            throw new Failure(1);
        }
        stack[depth++] = l;
    }

    long pop() {
        if (depth == 0) {
            throw new Failure(2);
        }
        return stack[--depth];
    }

    static int operands(int op) {
        switch (op) {
            case 0:
            case 1:
                return 1;
            case 2:
            case 3:
            case 4:
            case 5:
                return 2;
            case 7:
                return 0;
            default:
                return -1;
        }
    }

    long apply(int op, long a, long b) {
        switch (op) {
            case '+':
                return a + b;
            case '*':
                return a * b;
            case '/':
                return a / b;
            case -70000:
                return a % b;
            case Integer.MAX_VALUE:
                return a > b ? a : b;
        }
        throw new Failure(op);
    }

    long run(int[] code) {
        depth = 0;
        for (int pc = 0; pc < code.length; pc++) {
            int op = code[pc];
            if (op < 1000 && op >= 0) {
                push(op);
            } else {
                long b = pop(), a = pop();
                push(apply(op - 1000, a, b));
            }
        }
        return pop();
    }

    static void run(Calculator machine, int[] code) {
        try {
            printl(machine.run(code));
        } catch (Failure e) {
            print(-e.code);
        } catch (ArithmeticException e) {
            print(-100);
        }
    }

    static void main() {
        Calculator machine = new Calculator();
        int plus = 1000 + '+', times = 1000 + '*', divide = 1000 + '/', rest = 1000 - 70000;
        run(machine, new int[] {2, 3, plus, 4, times});
        run(machine, new int[] {999, 999, times, 999, times, 999, times, 999, times, 7, rest});
        run(machine, new int[] {1, 0, divide});
        run(machine, new int[] {plus});
        run(machine, new int[] {1, 2, 3, 4, 5, 6, 7, 8, 9});
        run(machine, new int[] {1, 2, 1000 + '-'});
        for (int op = -1; op < 9; op++) {
            print(operands(op));
        }
    }
}
