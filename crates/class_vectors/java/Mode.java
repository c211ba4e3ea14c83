// How the drive is run.
public enum Mode {
    OFF,
    IDLE(5),
    RUN(100);

    final int percent;

    Mode() {
        this(0);
    }

    Mode(int percent) {
        this.percent = percent;
    }
}
