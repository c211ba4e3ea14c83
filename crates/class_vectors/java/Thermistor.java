// A thermistor's table, with a constant of each kind.
public class Thermistor implements Sensor, Comparable<Thermistor> {
    static final int BETA = 3950;
    static final float SUPPLY = 3.3f;
    static final long SERIAL = 0x1122334455667788L;
    static final double KELVIN = 273.15;
    static final String NAME = "NTC 10k \u00e9\u4e2d";
    static final int[] OHMS = {32650, 25390, 19900, 15710, 12490, 10000, 8057, 6531};
    private final int pull;

    Thermistor(int pull) {
        this.pull = pull;
    }

    public double degrees(int raw) {
        double ohms = pull * (double) raw / (4095.0 - raw);
        double inverse = 1.0 / (KELVIN + 25.0) + Math.log(ohms / 10000.0) / BETA;
        return 1.0 / inverse - KELVIN + (SERIAL == 0 ? SUPPLY : 0);
    }

    public int compareTo(Thermistor other) {
        return Integer.compare(pull, other.pull);
    }

    @Override
    public String toString() {
        return NAME;
    }
}
