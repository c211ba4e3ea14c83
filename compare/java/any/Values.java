package any;

/** Constants of every kind, with the values at their borders. */
public class Values {
    public static final int LEAST = Integer.MIN_VALUE, MOST = Integer.MAX_VALUE, ONE_LESS = -1;
    public static final long LONG_LEAST = Long.MIN_VALUE, LONG_MOST = Long.MAX_VALUE, SMALL = 70000L;
    public static final float HUGE = Float.MAX_VALUE, TINY = Float.MIN_VALUE, NONE = Float.NaN, NEGATIVE_ZERO = -0.0f, ENDLESS = Float.NEGATIVE_INFINITY;
    public static final double HUGE_D = Double.MAX_VALUE, TINY_D = Double.MIN_VALUE, NONE_D = Double.NaN, NEGATIVE_ZERO_D = -0.0, PI = Math.PI;
    public static final String EMPTY = "", NUL = "a\0b", PAIR = "\uD83D\uDE00", LONE = "\uDAB9x", BACKWARDS = "\uDC00\uD800", HAN = "\u4E2D\u6587", SHARP = "gr\u00FC\u00DFe";
    public static final char LETTER = '\uFFFF';
    public static final byte BYTE = -128;
    public static final short SHORT = 32767;
    public static final boolean TRUE = true;
    protected transient volatile int[][][] deep = new int[3][4][5];
    private Values[][] own;
    strictfp double sum(double... xs) { double s = 0; for (double x : xs) s += x * 1e300 / 3.5; return s; }
    static native long outside(int a, long b, Object[] c, String d);
    synchronized Object[] many(byte a, char b, short c, int d, long e, float f, double g, boolean h, String i, int[] j, Values[][] k) {
        return new Object[] {a, b, c, d, e, f, g, h, i, j, k, int[][].class, void.class, Values[].class};
    }
}
