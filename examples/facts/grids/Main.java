class Main {
    static Object[][] grid(Object first, Object second) {
        Object[][] rows = new Object[2][];
        rows[0] = new Object[1];
        rows[1] = new String[1];
        rows[0][0] = first;
        rows[1][0] = second;
        return rows;
    }

    public static void main(String[] args) {
        Object[][] rows = grid(new int[Io.next()], args.length > 0 ? args[0] : "none");
        Object[] row = rows[Io.next()];
        int[] numbers = (int[]) rows[0][0];
        numbers[0] = 3;
        Io.show(numbers[0] + row.length);
    }
}
