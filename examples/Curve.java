/**
 * A motor's curve as a table that a loader can take: one constant for each number, and each has its name and its value in the class file.
 * An array would not do: of {0.0, 1.0, 2.0, 2.0, 3.5} only 2.0 and 3.5 stand in the pool, since arrays are filled by code.
 */
public final class Curve {
    /** What the table is for. */
    public static final String MOTOR = "M4 \u2265 2.5 kW";
    /** Points of the table, from 0 on. */
    public static final int POINTS = 5;

    public static final double SPEED_0 = 0.0;
    public static final double SPEED_1 = 1.0;
    public static final double SPEED_2 = 2.0;
    public static final double SPEED_3 = 2.5;
    public static final double SPEED_4 = 3.5;

    public static final double TORQUE_0 = 0.0;
    public static final double TORQUE_1 = 1.0;
    public static final double TORQUE_2 = 2.0;
    public static final double TORQUE_3 = 2.0;
    public static final double TORQUE_4 = 3.5;

    private Curve() {
    }
}
