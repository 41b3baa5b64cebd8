package zelamiku;

/**
 * Why a call failed: the heap's path, the reason, and the cure. After a {@link Stopped} this opening of the heap has ended; what was durable
 * stays, and it may be opened again. After any other the heap goes on, and the call that failed has done nothing.
 */
public abstract sealed class HeapException extends RuntimeException {
    private static final long serialVersionUID = 1;

    /** What the library says of a failure; {@code errno} is the system's number of the cause, or 0. */
    record Failure(String path, String reason, String cure, int errno) {}

    private final transient Failure failure;

    private HeapException(Failure failure) {
        super(failure.path + ": " + failure.reason + "; " + failure.cure);
        this.failure = failure;
    }

    /** The path that was given to {@link Heap#open} or {@link Heap#copyTo}. */
    public final String path() { return failure.path; }

    /** What went wrong. */
    public final String reason() { return failure.reason; }

    /** What to do about it. */
    public final String cure() { return failure.cure; }

    /** The system's errno, for example 28 (ENOSPC), or 0 if the system isn't the cause. */
    public final int errno() { return failure.errno; }

    // ---- there is no heap ----

    /** The heap wasn't opened. A file that was there is left as it was. */
    public abstract static sealed class NotOpened extends HeapException {
        private NotOpened(Failure failure) { super(failure); }
    }

    /** The shared library wasn't found, or is of another release. */
    public static final class NoLibrary extends NotOpened { NoLibrary(Failure failure) { super(failure); } }

    /** The schema or the options can be no heap: too many objects or fields, or none; or lanes, capacity or ring past their limits. */
    public static final class BadSchema extends NotOpened { BadSchema(Failure failure) { super(failure); } }

    /** Another process has the heap or makes it, this one has it open already, or the file was replaced meanwhile. */
    public static final class Busy extends NotOpened { Busy(Failure failure) { super(failure); } }

    /** The path has no heap, and {@link Options#mustExist} was set. */
    public static final class NoHeap extends NotOpened { NoHeap(Failure failure) { super(failure); } }

    /** The file holds something else than a heap. */
    public static final class NotAHeap extends NotOpened { NotAHeap(Failure failure) { super(failure); } }

    /** The file's heap isn't that of the schema: the reason names the first difference. */
    public static final class OtherHeap extends NotOpened { OtherHeap(Failure failure) { super(failure); } }

    /** The file's heap is of an older version: {@link Options#upgrades} opens it. */
    public static final class OldVersion extends NotOpened { OldVersion(Failure failure) { super(failure); } }

    /** The file's heap can't be read: something else has written the file, or its disk has lost what it had synced. */
    public static final class DamagedFile extends NotOpened { DamagedFile(Failure failure) { super(failure); } }

    /** The file can't be opened, made, locked, read or written. A file that had no heap yet may have changed. */
    public static final class FileFailed extends NotOpened { FileFailed(Failure failure) { super(failure); } }

    // ---- the heap goes on ----

    /** The call did nothing, and the heap goes on. */
    public abstract static sealed class Refused extends HeapException {
        private Refused(Failure failure) { super(failure); }
    }

    /** The thread doesn't hold the monitor. */
    public static final class NotHeld extends Refused { NotHeld(Failure failure) { super(failure); } }

    /** A monitor comes before one that the thread holds: taken so, two threads could wait for each other for ever. Or an inner section is open. */
    public static final class OutOfOrder extends Refused { OutOfOrder(Failure failure) { super(failure); } }

    /** All lanes were in use for {@link Options#laneTimeout}. */
    public static final class NoLane extends Refused { NoLane(Failure failure) { super(failure); } }

    /** The section would have more than 1,000 records: one for each monitor locked, each freed, and each store; with {@link Options#reverts}
     * one more for each field stored to. */
    public static final class SectionFull extends Refused { SectionFull(Failure failure) { super(failure); } }

    /** The thread holds 16 monitors, or one monitor by 65,536 locks. */
    public static final class TooMany extends Refused { TooMany(Failure failure) { super(failure); } }

    /** The thread has a section open. */
    public static final class InSection extends Refused { InSection(Failure failure) { super(failure); } }

    /** An inner section has failed, so all that this section had stored was taken back. It can do nothing more: leave it. */
    public static final class Reverted extends Refused { Reverted(Failure failure) { super(failure); } }

    /** What the section has stored can't be taken back, and nothing was. */
    public static final class NotReverted extends Refused { NotReverted(Failure failure) { super(failure); } }

    /** A section is open, or a thread waits. */
    public static final class Running extends Refused { Running(Failure failure) { super(failure); } }

    /** A write to the file has failed, for example on a full disk. Nothing is lost: it is made again each second, and by the next call that waits. */
    public static final class WriteFailed extends Refused { WriteFailed(Failure failure) { super(failure); } }

    /** The copy can't be written. What was at its path stays. */
    public static final class CopyFailed extends Refused { CopyFailed(Failure failure) { super(failure); } }

    /** There was no memory, a limit of the opening was reached (1,024 monitors waited on), or a monitor is worn out: the reason says which. */
    public static final class LimitReached extends Refused { LimitReached(Failure failure) { super(failure); } }

    // ---- the heap has ended ----

    /** This opening of the heap has ended. What was durable stays, and it may be opened again. */
    public abstract static sealed class Stopped extends HeapException {
        private Stopped(Failure failure) { super(failure); }
    }

    /** The heap was closed or stopped. */
    public static final class Closed extends Stopped { Closed(Failure failure) { super(failure); } }

    /** A thread has ended in a section, a section has failed that couldn't be taken back, or the program has called {@link Heap#abandon}. */
    public static final class Abandoned extends Stopped { Abandoned(Failure failure) { super(failure); } }

    /** A sync has failed, the file was closed, or the last write of a stop has failed: what wasn't durable may be lost. */
    public static final class SyncFailed extends Stopped { SyncFailed(Failure failure) { super(failure); } }

    /** The library has stopped, mostly for want of memory. */
    public static final class Failed extends Stopped { Failed(Failure failure) { super(failure); } }
}
