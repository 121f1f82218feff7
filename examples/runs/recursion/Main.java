class Main {
    static int fib(int n) {
        return n < 2 ? n : fib(n - 1) + fib(n - 2);
    }

    static boolean even(int n) {
        return n == 0 || odd(n - 1);
    }

    static boolean odd(int n) {
        return n != 0 && even(n - 1);
    }

    static int ackermann(int m, int n) {
        if (m == 0) return n + 1;
        if (n == 0) return ackermann(m - 1, 1);
        return ackermann(m - 1, ackermann(m, n - 1));
    }

    static int hanoi(int n, int a, int b, int c) {
        if (n == 0) return 0;
        int before = hanoi(n - 1, a, c, b);
        if (n == 3) Io.show(a * 100 + b * 10 + c);
        return before + 1 + hanoi(n - 1, c, b, a);
    }

    static void main() {
        int n = Io.next();
        Io.show(fib(n));
        Io.show(even(n) ? 1 : 0);
        Io.show(odd(n) ? 1 : 0);
        Io.show(ackermann(2, 3));
        Io.show(hanoi(5, 1, 2, 3));
    }
}
