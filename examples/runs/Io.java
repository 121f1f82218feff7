/** What a program asks and shows: natives for joana, and for a Java machine the class in real/. */
class Io {
    static native int next();
    static native void show(int value);
}
