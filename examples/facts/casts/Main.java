class Main {
    static Object choose(int n, String[] texts) {
        switch (n) {
            case 0:
                return texts;
            case 1:
                return new Object[2];
            case 2:
                return new int[2][].length == 2 ? "two" : null;
            default:
                return new Exception();
        }
    }

    public static void main(String[] args) {
        Object any = choose(Io.next(), args);
        if (any instanceof Object[]) {
            Object[] all = (Object[]) any;
            all[0] = "first";
            Io.show(all.length);
        } else if (any instanceof Exception) {
            Io.show(((Exception) any).getMessage() == null ? 1 : 0);
        }
    }
}
