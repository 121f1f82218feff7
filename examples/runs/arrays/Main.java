class Main {
    static int[] last;

    static int sum(int[][] rows) {
        int sum = 0;
        for (int[] row : rows) {
            if (row != null) for (int n : row) sum += n;
        }
        return sum;
    }

    static void main() {
        int n = Io.next();
        int[][] rows = new int[n][];
        Io.show(sum(rows));
        for (int i = 0; i < n; i++) {
            rows[i] = new int[i + 1];
            for (int k = 0; k <= i; k++) rows[i][k] = i * 10 + k;
        }
        Io.show(sum(rows));
        last = rows[n - 1];
        last[0] = 500;
        Io.show(rows[2][0]);
        int[] same = rows[0];
        rows[1] = same;
        same[0]++;
        Io.show(rows[1][0]);
        Object object = rows;
        Io.show(object instanceof int[][] ? 1 : 0);
        Io.show(object instanceof Object[] ? 1 : 0);
        Io.show(object instanceof int[] ? 1 : 0);
        Object[] objects = rows;
        Io.show(objects.length);
        try {
            objects[0] = new byte[1];
        } catch (ArrayStoreException e) {
            Io.show(-5);
        }
        objects[0] = null;
        Io.show(rows[0] == null ? 1 : 0);
        String[] names = {"x", "y", "x"};
        Io.show(names[0] == names[2] ? 1 : 0);
        Io.show(names[0].equals(names[1]) ? 1 : 0);
        Io.show(new Main[4].length + new String[5].length);
        boolean[] flags = {true, false, true};
        int count = 0;
        for (boolean flag : flags) if (flag) count++;
        Io.show(count);
    }
}
