class Main {
    private int total;

    class Adder {
        private final int by;

        Adder(int by) {
            this.by = by;
        }

        void add() {
            total += by;
        }
    }

    Adder adder(int by) {
        return new Adder(by);
    }

    static class Pair {
        private int left, right;

        private static Pair of(int left, int right) {
            Pair pair = new Pair();
            pair.left = left;
            pair.right = right;
            return pair;
        }
    }

    interface Task {
        int go(int n);
    }

    Task task(final int bonus) {
        return new Task() {
            private int calls;

            public int go(int n) {
                calls++;
                total += n;
                return total * 10 + calls + bonus;
            }
        };
    }

    static void main() {
        Main m = new Main();
        Adder one = m.adder(Io.next()), two = m.adder(Io.next());
        one.add();
        two.add();
        two.add();
        Io.show(m.total);
        Task task = m.task(400);
        Io.show(task.go(1));
        Io.show(task.go(2));
        Pair pair = Pair.of(one.by, two.by);
        pair.left += pair.right;
        Io.show(pair.left);
        class Local {
            int twice() {
                return m.total * 2;
            }
        }
        Io.show(new Local().twice());
    }
}
