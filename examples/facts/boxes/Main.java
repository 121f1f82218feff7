class Box {
    private int value;
    private Object content;

    void set(int value, Object content) {
        this.value = value;
        this.content = content;
    }

    Object content() {
        return content;
    }

    int get() {
        return value;
    }
}

class Main {
    public static void main(String[] args) {
        Box secret = new Box(), open = new Box();
        secret.set(Io.next(), new Object());
        open.set(1, args);
        secret.content();
        Object kept = open.content();
        Io.show(kept == null ? open.get() : secret.get());
    }
}
