/** Interfaces: default methods, a diamond of them, constants, calls through several types, and casts. */
public class Interfaces {
    interface Shape {
        int SIDES = 4;

        int area();

        default String name() {
            return "shape";
        }

        default String shown() {
            return name() + " of " + area();
        }
    }

    interface Named {
        String name();
    }

    static class Square implements Shape {
        final int side;

        Square(int side) {
            this.side = side;
        }

        public int area() {
            return side * side;
        }
    }

    static class Box extends Square implements Named {
        Box(int side) {
            super(side);
        }

        public String name() {
            return "box";
        }

        public int area() {
            return super.area() * (SIDES + 2);
        }
    }

    interface Left {
        default String side() {
            return "left";
        }
    }

    interface Right {
        default String side() {
            return "right";
        }
    }

    static class Both implements Left, Right {
        public String side() {
            return Left.super.side() + Right.super.side();
        }
    }

    public static void main(String[] words) {
        Shape[] shapes = {new Square(3), new Box(2), new Square(0)};
        for (Shape shape : shapes) {
            System.out.println(shape.shown());
            if (shape instanceof Named) {
                System.out.println("named " + ((Named) shape).name());
            }
            try {
                Box box = (Box) shape;
                System.out.println("a box of side " + box.side);
            } catch (ClassCastException fault) {
                System.out.println("no box");
            }
        }
        System.out.println(new Both().side());
    }
}
