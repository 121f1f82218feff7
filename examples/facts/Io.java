/** What a program asks and shows. */
class Io {
    static native int next();
    static native void show(int value);
}
