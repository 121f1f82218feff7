class Main {
    static int dense(int n) {
        int k = 0;
        switch (n) {
            case 1:
                k += 1;
            case 2:
                k += 10;
                break;
            default:
                k += 100;
            case 3:
                k += 1000;
                break;
            case 5:
                return 5;
        }
        return k;
    }

    static int sparse(int n) {
        switch (n) {
            case -2147483648:
                return 1;
            case -1:
                return 2;
            case 100:
                return 3;
            case 1000:
                return 4;
            case 2147483647:
                return 5;
        }
        return 6;
    }

    static int letter(char c) {
        switch (c) {
            case 'a': return 1;
            case 'z': return 26;
            default: return 0;
        }
    }

    static void main() {
        for (int i = 0; i < 12; i++) {
            int n = Io.next();
            Io.show(dense(n));
            Io.show(sparse(n));
            Io.show(letter((char) ('a' + n)));
        }
        Io.show(letter('z'));
    }
}
