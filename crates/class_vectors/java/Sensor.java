// What a sensor gives.
public interface Sensor {
    int LIMIT = 4095;

    double degrees(int raw);

    default boolean inRange(int raw) {
        return 0 <= raw && raw < LIMIT;
    }
}
