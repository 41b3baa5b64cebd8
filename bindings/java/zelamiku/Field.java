package zelamiku;

/**
 * A field of an object: 64 bits in the heap's file, as a value of one type. A {@link Monitor} declares it. A thread loads and stores it while
 * it holds that monitor; otherwise both throw {@link HeapException.NotHeld}. A store throws {@link HeapException.SectionFull} if the section would
 * have more than 1,000 records. A call that throws has stored nothing.
 */
public abstract sealed class Field {
    final Monitor monitor;
    final String name;
    final int number;
    final long first;
    boolean isTransient;

    private Field(Monitor monitor, String name, long first) {
        this.monitor = monitor.declaring();
        this.name = monitor.name() + "." + name;
        this.first = first;
        number = monitor.schema.fields.size();
        monitor.schema.fields.add(this);
    }

    /** Returns the object's name, a dot, and the field's own. */
    @Override public String toString() { return name; }

    final long load() { return monitor.schema.open().lane(this).load(this); }

    final void store(long bits) { monitor.schema.open().lane(this).store(this, bits); }

    /** A field of type {@code long}. */
    public static final class OfLong extends Field {
        OfLong(Monitor monitor, String name, long first) { super(monitor, name, first); }

        /** Loads the value. */
        public long get() { return load(); }

        /** Stores a value. */
        public void set(long value) { store(value); }

        /** Adds to the value, and returns the sum. */
        public long add(long summand) {
            long sum = load() + summand;
            store(sum);
            return sum;
        }
    }

    /** A field of type {@code int}. */
    public static final class OfInt extends Field {
        OfInt(Monitor monitor, String name, int first) { super(monitor, name, first); }

        /** Loads the value. */
        public int get() { return (int) load(); }

        /** Stores a value. */
        public void set(int value) { store(value); }
    }

    /** A field of type {@code double}: the bits of each value come back as they were stored. */
    public static final class OfDouble extends Field {
        OfDouble(Monitor monitor, String name, double first) { super(monitor, name, Double.doubleToRawLongBits(first)); }

        /** Loads the value. */
        public double get() { return Double.longBitsToDouble(load()); }

        /** Stores a value. */
        public void set(double value) { store(Double.doubleToRawLongBits(value)); }
    }

    /** A field of type {@code boolean}, stored as 0 or 1. */
    public static final class OfBoolean extends Field {
        OfBoolean(Monitor monitor, String name, boolean first) { super(monitor, name, first ? 1 : 0); }

        /** Loads the value. */
        public boolean get() { return load() != 0; }

        /** Stores a value. */
        public void set(boolean value) { store(value ? 1 : 0); }
    }

    /** A field of an enum, stored as the constant's ordinal: add new constants at the end. */
    public static final class OfEnum<E extends Enum<E>> extends Field {
        private final E[] constants;

        OfEnum(Monitor monitor, String name, E first) {
            super(monitor, name, first.ordinal());
            constants = first.getDeclaringClass().getEnumConstants();
        }

        /** Loads the value. IllegalStateException: the enum has no constant of the stored ordinal. */
        public E get() {
            long ordinal = load();
            if (ordinal < 0 || ordinal >= constants.length) throw new IllegalStateException(this + " has no constant of ordinal " + ordinal);
            return constants[(int) ordinal];
        }

        /** Stores a value. */
        public void set(E value) { store(value.ordinal()); }
    }
}
