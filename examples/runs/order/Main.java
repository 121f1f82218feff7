class Main {
    int field;

    static int step(int n) {
        Io.show(n);
        return n;
    }

    static int[] array(int n) {
        Io.show(-n);
        return n == 0 ? null : new int[n];
    }

    static Main object(int n) {
        Io.show(1000 + n);
        return n == 0 ? null : new Main();
    }

    static void attempt(int n) {
        try {
            if (n == 1) array(0)[step(5)] = step(6);
            if (n == 2) array(2)[step(9)] = step(7);
            if (n == 3) object(0).field = step(8);
            if (n == 4) object(1).field += step(2) / step(0);
        } catch (NullPointerException e) {
            Io.show(91);
        } catch (ArrayIndexOutOfBoundsException e) {
            Io.show(92);
        } catch (ArithmeticException e) {
            Io.show(93);
        }
    }

    static void main() {
        for (int i = 0; i < 4; i++) attempt(Io.next());
        int[] a = new int[3];
        int i = 0;
        a[i] = i = 2;
        Io.show(a[0]);
        Io.show(a[i] + (i++) * (++i));
        Io.show(step(1) + step(2) * step(3));
    }
}
