class Settings {
    static final String NAME = "name";
    static Object current;
    static int count;
}

class Main {
    static Object swap(Object next) {
        Object before = Settings.current;
        Settings.current = next;
        Settings.count++;
        return before;
    }

    public static void main(String[] args) {
        swap(Settings.NAME);
        swap(new Settings());
        swap(args);
        Io.show(Settings.current == Settings.NAME ? 1 : Settings.count);
    }
}
