abstract class Shape {
    protected int scale = 1;

    abstract int area();

    int scaled() {
        return area() * scale;
    }

    Shape larger() {
        scale++;
        return this;
    }
}

class Box extends Shape {
    private final int width, height;

    Box(int width, int height) {
        this.width = width;
        this.height = height;
    }

    int area() {
        return width * height;
    }
}

class Square extends Box {
    Square(int side) {
        super(side, side);
    }

    int area() {
        return super.area() + 1000;
    }

    Shape larger() {
        super.larger();
        super.larger();
        return this;
    }
}

class Nothing extends Shape {
    int area() {
        return 0;
    }
}

class Main {
    static void main() {
        int a = Io.next(), b = Io.next(), c = Io.next();
        Shape[] shapes = {new Box(a, b), new Square(c), new Nothing(), new Square(a).larger()};
        for (Shape shape : shapes) {
            Io.show(shape.area());
            Io.show(shape.scaled());
            Io.show(shape.larger().larger().scaled());
        }
    }
}
