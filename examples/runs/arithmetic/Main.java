class Main {
    static void all(int a, int b) {
        Io.show(a + b);
        Io.show(a - b);
        Io.show(a * b);
        if (b != 0) {
            Io.show(a / b);
            Io.show(a % b);
        }
        Io.show(-a);
        Io.show(a << b);
        Io.show(a >> b);
        Io.show(a >>> b);
        Io.show(a & b);
        Io.show(a | b);
        Io.show(a ^ b);
        Io.show(~a);
    }

    static void main() {
        int a = Io.next(), b = Io.next(), least = Io.next(), minus = Io.next(), most = Io.next();
        all(a, b);
        all(least, minus);
        all(most, most);
        all(least, 33);
        all(a, 0);
        int n = most;
        n++;
        Io.show(n);
        n -= 7;
        Io.show(n);
        n *= 3;
        Io.show(n);
        Io.show(1000 * 1000 * 1000 * a);
    }
}
