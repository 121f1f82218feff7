class Main {
    static int tries(int n) {
        try {
            if (n == 1) {
                throw new IllegalArgumentException("one");
            }
            return 10 / n;
        } catch (ArithmeticException zero) {
            return 1;
        } catch (RuntimeException other) {
            return other.getMessage() == null ? 2 : 3;
        }
    }

    static int until(int n) {
        while (true) {
            try {
                return tries(n) / n;
            } catch (ArithmeticException again) {
                n++;
            }
        }
    }

    static int passes(Object any) {
        try {
            return ((int[]) any)[0];
        } catch (ArithmeticException never) {
            return 0;
        }
    }

    public static void main(String[] args) {
        Io.show(tries(Io.next()));
        Io.show(until(Io.next()));
        Io.show(passes(new int[Io.next()]));
        Io.show(passes(args));
    }
}
