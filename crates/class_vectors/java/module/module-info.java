// The module of the drive's tools.
module drive.tools {
    requires java.base;
}
