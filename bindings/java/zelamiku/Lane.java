package zelamiku;

import static java.lang.foreign.ValueLayout.JAVA_LONG;

import java.lang.foreign.Arena;
import java.lang.foreign.MemorySegment;
import java.util.Arrays;
import java.util.concurrent.*;
import java.util.concurrent.atomic.AtomicReference;
import java.util.function.IntSupplier;
import zelamiku.HeapException.Failure;

/** A lane of the heap. One thread at a time has it, while it is in a section: only that thread uses what isn't final or atomic here. */
final class Lane {
    final Heap heap;
    final long handle;
    final long number;
    /** The thread that has it, or null. */
    final AtomicReference<Thread> owner = new AtomicReference<>();
    /** The monitors that are held, once for each lock, in the order of locking; {@code depth} of them. */
    private Monitor[] held = new Monitor[16];
    int depth;
    /** How many sections it has ended. */
    long ended;
    /** The innermost section that is open by {@link Heap#enter}. */
    Section innermost;
    /** How often the open section has stored, and why it was taken back, or null. */
    private int stores;
    private String failure;
    /** What calls write to. */
    private final MemorySegment out = Arena.ofAuto().allocate(8, 8);

    Lane(Heap heap, long handle) {
        this.heap = heap;
        this.handle = handle;
        number = Library.progress(handle, "lane");
    }

    // ---- monitors ----

    /** How many locks of the monitor are held. */
    int locks(Monitor monitor) {
        int count = 0;
        for (int at = 0; at < depth; at++) if (held[at] == monitor) count++;
        return count;
    }

    /** Whether a monitor is held that comes after this one. */
    boolean isPast(Monitor monitor) {
        for (int at = 0; at < depth; at++) if (held[at].number > monitor.number) return true;
        return false;
    }

    /** Locks the monitor, and returns whether it has it at the deadline. If it holds nothing the lane goes back after each failure. */
    boolean enter(Monitor monitor, long deadline) {
        boolean isEntered = false;
        try {
            mustNotBeReverted();
            if (depth == held.length) held = Arrays.copyOf(held, 2 * depth);
            int status = Library.enter(handle, monitor.number, 0);
            if ((status == Library.HELD || status == Library.BEHIND) && deadline != 0)
                status = asleep(() -> Library.enter(handle, monitor.number, deadline), "lock", monitor);
            if (status == Library.HELD || status == Library.BEHIND) return false;
            heap.must(status, "lock", monitor);
            held[depth++] = monitor;
            return isEntered = true;
        } finally {
            if (!isEntered && depth == 0) heap.giveBack(this);
        }
    }

    /** Unlocks the monitor once. With the last one the section ends, and the lane goes back. */
    void exit(Monitor monitor) {
        int at = depth - 1;
        while (at >= 0 && held[at] != monitor) at--;
        if (at < 0) throw heap.notHeld(monitor);
        HeapException failed = free(at);
        if (failed != null) throw failed;
    }

    /** Unlocks the monitors above so many locks, and returns the first failure, or null. */
    HeapException freeTo(int base) {
        HeapException first = null;
        // (after the last one another thread may have the lane)
        for (int left = depth - base; left > 0; left--) {
            HeapException failed = free(base + left - 1);
            if (first == null) first = failed;
        }
        return first;
    }

    private HeapException free(int at) {
        Monitor monitor = held[at];
        System.arraycopy(held, at + 1, held, at, --depth - at);
        int status = Library.exit(handle, monitor.number);
        HeapException failed = status == Library.OK ? null : heap.failed(status, "unlock", monitor);
        if (depth > 0) return failed;
        if (failed == null && failure != null) failed = reverted();
        ended++;
        stores = 0;
        failure = null;
        for (; innermost != null; innermost = innermost.outer) innermost.isOver = true;
        heap.giveBack(this);
        return failed;
    }

    void await(Monitor monitor) {
        mustNotBeReverted();
        int locks = locks(monitor);
        if (locks == 0) throw heap.notHeld(monitor);
        if (asleep(() -> Library.await(handle, monitor.number), "wait for", monitor) == Library.BEHIND)
            throw new HeapException.LimitReached(new Failure(heap.path, "the lane has no room for a section's records before a round", "try again", 0));
        if (locks < depth) return;
        ended++;
        stores = 0;
    }

    /** Wakes one thread, or all, and returns how many. */
    int signal(Monitor monitor, boolean all) {
        mustNotBeReverted();
        heap.must(Library.signal(handle, monitor.number, all, out), "signal", monitor);
        return Long.bitCount(out.get(JAVA_LONG, 0));
    }

    // ---- fields ----

    long load(Field field) {
        mustNotBeReverted();
        heap.must(Library.load(handle, field.number, out), "load", field);
        return out.get(JAVA_LONG, 0);
    }

    void store(Field field, long bits) {
        mustNotBeReverted();
        heap.must(Library.store(handle, field.number, bits), "store", field);
        stores++;
    }

    // ---- taking back ----

    /** A section has failed: takes back all that the open one has stored, which can do nothing more if it goes on. Stops the heap if that can't be
     * done. */
    void fail(String cause, boolean isInner) {
        if (stores == 0 || failure != null) return;
        if (Library.revert(handle) == Library.NOT_REVERTED) heap.abandonFor("a section has failed that can't be taken back: " + cause);
        stores = 0;
        failure = isInner ? cause : null;
    }

    void revert() {
        mustNotBeReverted();
        heap.must(Library.revert(handle), "revert", "");
        stores = 0;
    }

    private void mustNotBeReverted() {
        if (failure != null) throw reverted();
    }

    private HeapException reverted() {
        return new HeapException.Reverted(new Failure(heap.path, "an inner section has failed, and took this one back: " + failure,
            "let the exception leave the outermost section too, or catch it in the inner one", 0));
    }

    // ---- calls that may sleep ----

    private static final ExecutorService SLEEPERS = Executors.newCachedThreadPool(Thread.ofPlatform().daemon().name("zelamiku-sleeper-", 0).factory());

    /** Makes a call that may sleep: OK, HELD or BEHIND. For a virtual thread a platform thread makes it, since it would pin the carrier. */
    private int asleep(IntSupplier call, String verb, Monitor monitor) {
        // The library keeps a failure for the thread that made the call.
        IntSupplier checked = () -> {
            int status = call.getAsInt();
            if (status != Library.HELD && status != Library.BEHIND) heap.must(status, verb, monitor);
            return status;
        };
        boolean isVirtual = Thread.currentThread().isVirtual();
        return isVirtual ? Heap.joined(CompletableFuture.supplyAsync(checked::getAsInt, SLEEPERS)) : checked.getAsInt();
    }
}
