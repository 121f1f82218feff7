class Main {
    byte small;
    short middle;
    char letter;
    boolean flag;

    static byte low(int n) {
        return (byte) n;
    }

    static char code(int n) {
        return (char) n;
    }

    static short half(int n) {
        return (short) n;
    }

    static boolean odd(int n) {
        return n % 2 != 0;
    }

    static void main() {
        Main m = new Main();
        byte[] bytes = new byte[2];
        char[] chars = new char[2];
        short[] shorts = new short[2];
        boolean[] flags = new boolean[2];
        for (int i = 0; i < 4; i++) {
            int n = Io.next();
            m.small = (byte) n;
            m.middle = (short) n;
            m.letter = (char) n;
            m.flag = odd(n);
            bytes[1] = (byte) n;
            chars[1] = (char) n;
            shorts[1] = (short) n;
            flags[1] = m.flag;
            Io.show(m.small);
            Io.show(m.middle);
            Io.show(m.letter);
            Io.show(m.flag ? 1 : 0);
            Io.show(bytes[1]);
            Io.show(chars[1]);
            Io.show(shorts[1]);
            Io.show(flags[1] ? 1 : 0);
            Io.show(low(n + 1));
            Io.show(code(n - 1));
            Io.show(half(n * 2));
            m.small += 100;
            Io.show(m.small);
            m.letter--;
            Io.show(m.letter);
            bytes[0]++;
            shorts[0] -= 5;
            chars[0] += 40000;
        }
        Io.show(bytes[0]);
        Io.show(shorts[0]);
        Io.show(chars[0]);
    }
}
