import java.util.function.DoubleUnaryOperator;

// A lambda and a concatenated string: InvokeDynamic entries and BootstrapMethods.
class Curve {
    static DoubleUnaryOperator line(double slope, double offset) {
        return x -> slope * x + offset;
    }

    static String say(int raw, double degrees) {
        return "raw " + raw + " is " + degrees;
    }
}
