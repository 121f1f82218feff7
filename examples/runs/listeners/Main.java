interface Listener {
    void heard(int n) throws Exception;
}

class Source {
    private Listener[] all = new Listener[2];
    private int count;

    void add(Listener listener) {
        if (count == all.length) {
            Listener[] more = new Listener[count * 2];
            for (int i = 0; i < count; i++) more[i] = all[i];
            all = more;
        }
        all[count++] = listener;
    }

    int tell(int n) {
        int failed = 0;
        for (int i = 0; i < count; i++) {
            try {
                all[i].heard(n);
            } catch (Exception e) {
                failed++;
            }
        }
        return failed;
    }
}

class Main {
    static int heard;

    static void main() {
        Source source = new Source();
        for (int i = 0; i < 3; i++) {
            final int by = Io.next();
            source.add(new Listener() {
                public void heard(int n) {
                    heard += n / (by - 3);
                }
            });
            source.add(new Listener() {
                public void heard(int n) throws Exception {
                    if (n % by == 0) throw new Exception("divides");
                    heard += 100;
                }
            });
        }
        for (int n = 4; n < 8; n++) {
            Io.show(source.tell(n));
            Io.show(heard);
        }
    }
}
