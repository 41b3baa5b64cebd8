package zelamiku;

import java.util.Date;
import java.util.concurrent.TimeUnit;
import java.util.concurrent.atomic.AtomicInteger;
import java.util.concurrent.locks.Condition;
import java.util.concurrent.locks.Lock;

/**
 * An object of a heap: a monitor with Java's rules (JLS 17.1, 17.2), and the fields that it guards. A subclass declares the fields: see {@link
 * Schema}.
 *
 * <p>{@link Heap#synchronizedOn} and {@link Heap#enter} lock monitors in one order, and take a section back that fails. As a {@link Lock} a monitor
 * is locked in whatever order the program chooses, and {@link #unlock} keeps what the section has stored; {@link Heap#revert} takes it back.
 *
 * <p>A call that locks throws {@link HeapException.NoLane}, {@link HeapException.TooMany} (16 monitors are held), {@link
 * HeapException.SectionFull}, {@link HeapException.WriteFailed} or {@link HeapException.Stopped}: what was held stays held.
 */
public class Monitor implements Lock {
    /** How long an interrupt may go unnoticed, in nanoseconds. */
    private static final long SLICE = 50_000_000;

    final Schema schema;
    final int number;
    private final String name;
    private final AtomicInteger conditions = new AtomicInteger();

    /** Adds an object to the schema. IllegalStateException: a heap was opened with it. */
    public Monitor(Schema schema, String name) {
        this.schema = schema;
        this.name = name;
        declaring();
        number = schema.monitors.size();
        schema.monitors.add(this);
    }

    /** Returns the object's name. */
    public final String name() { return name; }

    /** Returns the object's name. */
    @Override public String toString() { return name; }

    // ---- declaring ----

    final Monitor declaring() {
        schema.mustBeUnopened();
        return this;
    }

    /** Declares a field. {@code first} is its value when the heap is made. IllegalStateException: a heap was opened with the schema. */
    public final Field.OfLong longField(String name, long first) { return new Field.OfLong(this, name, first); }

    /** Declares a field, as {@link #longField}. */
    public final Field.OfInt intField(String name, int first) { return new Field.OfInt(this, name, first); }

    /** Declares a field, as {@link #longField}. */
    public final Field.OfDouble doubleField(String name, double first) { return new Field.OfDouble(this, name, first); }

    /** Declares a field, as {@link #longField}. */
    public final Field.OfBoolean booleanField(String name, boolean first) { return new Field.OfBoolean(this, name, first); }

    /** Declares a field, as {@link #longField}. */
    public final <E extends Enum<E>> Field.OfEnum<E> enumField(String name, E first) { return new Field.OfEnum<>(this, name, first); }

    /** Declares the field transient, and returns it: its stores aren't logged, and each opening begins with its first value. */
    public static <F extends Field> F asTransient(F field) {
        field.monitor.declaring();
        field.isTransient = true;
        return field;
    }

    // ---- Lock ----

    /** Locks the monitor, or locks it once more. Sleeps while another thread has it. */
    @Override public void lock() { schema.open().entered().enter(this, Library.NO_DEADLINE); }

    /** Locks the monitor, and returns true, if no other thread has it and the lane has room. It sleeps only for a lane. */
    @Override public boolean tryLock() { return schema.open().entered().enter(this, 0); }

    /** Locks the monitor, or returns false when the time has passed. An interrupt is noticed within 50 ms: for that the thread leaves the monitor's
     * queue, and joins it again at the end. */
    @Override public boolean tryLock(long time, TimeUnit unit) throws InterruptedException { return lockUntil(Heap.deadline(unit.toNanos(time))); }

    /** Locks the monitor. An interrupt is noticed as by {@link #tryLock(long, TimeUnit)}. */
    @Override public void lockInterruptibly() throws InterruptedException { lockUntil(Library.NO_DEADLINE); }

    private boolean lockUntil(long deadline) throws InterruptedException {
        for (;;) {
            if (Thread.interrupted()) throw new InterruptedException();
            long slice = Heap.deadline(SLICE);
            boolean isLast = Long.compareUnsigned(deadline, slice) <= 0;
            if (schema.open().entered().enter(this, isLast ? deadline : slice)) return true;
            if (isLast) return false;
        }
    }

    /** Unlocks the monitor once. The thread's last unlock ends the section. {@link HeapException.NotHeld}: nothing was done.
     * {@link HeapException.Reverted}, {@link HeapException.Stopped}: it is unlocked all the same. */
    @Override public void unlock() { schema.open().lane(this).exit(this); }

    /** Returns whether the calling thread holds the monitor. */
    public final boolean isHeldByCurrentThread() {
        Lane lane = schema.open().laneOrNull();
        return lane != null && lane.locks(this) > 0;
    }

    // ---- wait and notify ----

    /**
     * Does what {@link Object#wait()} does: frees the monitor with all its locks, sleeps until another thread signals, and locks it again as often.
     * There are no spurious wake-ups, no deadline, and no interrupt: only a signal or the heap's end ends the sleep. If the thread holds no other
     * monitor the section ends, and what it has stored stays.
     *
     * <p>{@link HeapException.NotHeld}, {@link HeapException.SectionFull}, {@link HeapException.LimitReached}, {@link HeapException.WriteFailed}:
     * the monitor is held as before. {@link HeapException.Stopped}: unlock it all the same.
     */
    public final void await() { schema.open().lane(this).await(this); }

    /** Does what {@link Object#notify()} does: wakes one of the threads that wait for a signal of this monitor, and returns whether there was one.
     * {@link HeapException.NotHeld}: nobody is woken. */
    public final boolean signal() { return schema.open().lane(this).signal(this, false) > 0; }

    /** Does what {@link Object#notifyAll()} does: wakes all threads that wait for a signal of this monitor, and returns how many.
     * {@link HeapException.NotHeld}: nobody is woken. */
    public final int signalAll() { return schema.open().lane(this).signal(this, true); }

    /**
     * Returns a condition of this monitor. A monitor has one wait set. So if it has several conditions, a signal of one of them wakes all threads
     * that wait, also those of the others: each must look again at what it waits for. {@link Condition#await()} notices only an interrupt that came
     * before it sleeps, and the forms with a time throw UnsupportedOperationException.
     */
    @Override public Condition newCondition() {
        conditions.incrementAndGet();
        return new Waits();
    }

    private final class Waits implements Condition {
        @Override public void await() throws InterruptedException {
            if (Thread.interrupted()) throw new InterruptedException();
            Monitor.this.await();
        }

        @Override public void signal() { schema.open().lane(Monitor.this).signal(Monitor.this, conditions.get() > 1); }

        @Override public void awaitUninterruptibly() { Monitor.this.await(); }

        @Override public void signalAll() { Monitor.this.signalAll(); }

        @Override public long awaitNanos(long nanoseconds) { throw timed(); }

        @Override public boolean await(long time, TimeUnit unit) { throw timed(); }

        @Override public boolean awaitUntil(Date deadline) { throw timed(); }

        private static UnsupportedOperationException timed() { return new UnsupportedOperationException("a wait for a signal has no deadline"); }
    }
}
