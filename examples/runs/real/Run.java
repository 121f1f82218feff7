/** Runs a program, with the ints that Io.next gives as words of the command. */
class Run {
    public static void main(String[] words) throws Throwable {
        Io.given = new int[words.length];
        for (int i = 0; i < words.length; i++) Io.given[i] = Integer.parseInt(words[i]);
        try {
            Main.main();
        } catch (Throwable thrown) {
            System.err.println(thrown);
        }
        System.out.println("ended");
    }
}
