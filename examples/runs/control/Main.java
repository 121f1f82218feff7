class Main {
    static int gcd(int a, int b) {
        while (b != 0) {
            int t = a % b;
            a = b;
            b = t;
        }
        return a;
    }

    static boolean shown(int n, boolean is) {
        Io.show(n);
        return is;
    }

    static void main() {
        int a = Io.next(), b = Io.next();
        Io.show(gcd(a, b));
        Io.show(gcd(b, 24));
        if (shown(1, false) && shown(2, true) || shown(3, true) & shown(4, false) | shown(5, true)) Io.show(6);
        int count = 0;
        outer:
        for (int i = 0; i < 10; i++) {
            int k = i;
            do {
                if (k % 7 == 3) continue outer;
                if (i * k > 40) break outer;
                count += k;
            } while (--k > 0);
        }
        Io.show(count);
        int n = a, steps = 0;
        while (n != 1) {
            n = n % 2 == 0 ? n / 2 : 3 * n + 1;
            steps++;
        }
        Io.show(steps);
        for (int i = 8, k = 1; i > k; i--, k++) Io.show(i * k);
        boolean x = a < b ^ b <= a, y = !(a >= b), z = a != b == (a == b);
        Io.show((x ? 4 : 0) + (y ? 2 : 0) + (z ? 1 : 0));
    }
}
