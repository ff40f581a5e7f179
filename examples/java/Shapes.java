import static vm.Sys.*;

/** Interfaces, abstract classes, methods that are overridden, hidden fields, casts, and arrays of them. */
public class Shapes {
    interface Shape {
        int area();
    }

    interface Named {
        int name();
    }

    static abstract class Figure implements Shape {
        int id = 5;
        static int made;

        Figure() {
            made++;
            id += sides();
        }

        abstract int sides();

        int twice() {
            return 2 * area();
        }
    }

    static class Rectangle extends Figure implements Named {
        final int a, b;

        Rectangle(int a, int b) {
            this.a = a;
            this.b = b;
        }

        int sides() {
            return 4;
        }

        public int area() {
            return a * b;
        }

        public int name() {
            return 'R';
        }
    }

    static class Square extends Rectangle {
        int id = 77;

        Square(int a) {
            super(a, a);
        }

        int twice() {
            return super.twice() + 1000;
        }

        public int name() {
            return 'S';
        }
    }

    static class Dot implements Shape {
        public int area() {
            return 0;
        }
    }

    static void main() {
        Shape[] shapes = {new Rectangle(3, 4), new Square(5), new Dot()};
        for (int i = 0; i < shapes.length; i++) {
            print(shapes[i].area());
            if (shapes[i] instanceof Figure) {
                Figure f = (Figure) shapes[i];
                print(f.twice());
                print(f.id);
            }
            try {
                putc(((Named) shapes[i]).name());
                putc('\n');
            } catch (ClassCastException e) {
                print(-1);
            }
        }
        print(((Square) shapes[1]).id);
        print(Figure.made);
        Object[] squares = new Square[2];
        squares[0] = shapes[1];
        try {
            squares[1] = shapes[0];
        } catch (ArrayStoreException e) {
            print(squares[1] == null ? -2 : -3);
        }
        print(squares instanceof Shape[] ? 1 : 0);
        print(squares instanceof Object[] ? 1 : 0);
    }
}
