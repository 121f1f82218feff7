/** The same as natives in Java: ints are taken from the words of the command, and shown ones printed. */
class Io {
    static int[] given = new int[0];
    static int taken;

    static int next() {
        return taken < given.length ? given[taken++] : 0;
    }

    static synchronized void show(int value) {
        System.out.println("out Io.show(I)V " + value);
    }
}
