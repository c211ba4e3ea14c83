/** A module file: Module and Package entries. */
module sample.module {
    requires transitive java.logging;
    requires static java.sql;
    exports sample.open to java.logging, java.sql;
    opens sample.open;
    uses java.util.function.Supplier;
    provides java.lang.Runnable with sample.open.Task;
}
