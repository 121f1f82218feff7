interface Shape {
    int area();
}

class Square implements Shape {
    int side = 2;

    public int area() {
        return side * side;
    }
}

class Large extends Square {
    public int area() {
        return 4 * super.area();
    }
}

class Main {
    static Object any(int n) {
        if (n == 0) {
            return new Square();
        }
        if (n == 1) {
            return new Large();
        }
        return n == 2 ? "text" : (Object) new int[1];
    }

    public static void main(String[] args) {
        Shape shape = (Shape) any(Io.next());
        Io.show(shape.area());
        Square square = new Large();
        Io.show(square.area());
    }
}
