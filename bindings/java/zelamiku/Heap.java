package zelamiku;

import static java.lang.foreign.ValueLayout.*;

import java.lang.foreign.*;
import java.nio.file.Path;
import java.time.Duration;
import java.util.*;
import java.util.concurrent.*;
import java.util.concurrent.atomic.AtomicBoolean;
import java.util.concurrent.locks.*;
import java.util.stream.LongStream;
import zelamiku.HeapException.Failure;

/**
 * A heap in a file: objects of 64-bit fields that threads change under their monitors.
 *
 * {@snippet :
 * Bank bank = new Bank();
 * try (Heap heap = Heap.open(Path.of("accounts.heap"), bank)) {     // made, or recovered
 *     heap.synchronizedOn(List.of(bank.alice, bank.bob), () -> {    // a section
 *         bank.alice.balance.add(-10);
 *         bank.bob.balance.add(10);
 *     });
 *     heap.durable();                                               // no crash can lose it now
 * }
 * }
 *
 * <p>What a thread does from its first lock to its last unlock is a <em>section</em>. After a crash it is there whole or not at all, with all
 * sections that it depends on. It is durable some time after it has ended: {@link #durable} waits for that.
 *
 * <p>A section needs one of the heap's lanes ({@link Options#lanes}), and any thread takes a free one, also a virtual thread. If none is free the
 * thread sleeps for one, for {@link Options#laneTimeout} at most ({@link HeapException.NoLane}). A thread that waits for a signal keeps its lane.
 * If a thread ends inside a section the heap is abandoned within a second or two.
 *
 * <p>The sleep of a virtual thread for a lane, a monitor, a signal or durability doesn't pin its carrier; {@code open}, {@code close}, {@code stop}
 * and {@code copyTo} do.
 *
 * <p>Close the heap. When the JVM exits with an open heap, sections that weren't durable may be lost, as in a crash.
 */
public final class Heap implements AutoCloseable {
    final Schema schema;
    final String path;
    final long handle;
    private final Duration laneTimeout;
    private final Report report;
    private final long hook;
    private final Rounds rounds;
    private final AtomicBoolean isClosed = new AtomicBoolean();
    private volatile String abandoned = "";
    private final ThreadLocal<Own> owns = ThreadLocal.withInitial(Own::new);
    /** The lanes that were begun, by their place; those after them are null. Written under the lock. */
    private final Lane[] lanes = new Lane[Library.MOST_LANES];
    private volatile int begun;
    private final ReentrantLock lock = new ReentrantLock();
    private final Condition freed = lock.newCondition();
    /** How many threads sleep for a lane. */
    private volatile int wanting;

    /** What a thread has of the heap: the lane of its open section; the one before that, and how many sections had ended there; the others. */
    private static final class Own {
        Lane lane, last;
        long ended;
        final Map<Lane, Long> others = new HashMap<>(0);
    }

    /** Work that returns something. */
    @FunctionalInterface public interface Work<T, X extends Throwable> { T call() throws X; }

    /** Work that returns nothing. */
    @FunctionalInterface public interface Action<X extends Throwable> { void run() throws X; }

    // ---- opening and closing ----

    /** Opens the heap with the default {@link Options}. */
    public static Heap open(Path path, Schema schema) { return open(path, schema, new Options()); }

    /**
     * Opens the heap of the file at this path and recovers it, or makes one if there is no file, an empty one or one of zeros. The file stays locked
     * while the heap is open. A kind of {@link HeapException.NotOpened}: there is no heap. IllegalStateException: the schema was used before.
     */
    public static Heap open(Path path, Schema schema, Options options) {
        Library.mustBeThere();
        schema.mustBeUnopened();
        try (Arena arena = Arena.ofConfined()) {
            MemorySegment plan = plan(arena, schema, options), report = Library.REPORT.allocate(arena), heap = arena.allocate(JAVA_LONG);
            long hook = options.log == null ? 0 : Library.hook(plan, options.log);
            int status = Library.open(heap, arena.allocateFrom(path.toString()), plan, report);
            if (status == Library.OK) return new Heap(schema, path.toString(), options.laneTimeout, heap.get(JAVA_LONG, 0), hook, report);
            HeapException failed = notOpened(status, schema, report);
            Library.unhook(hook);
            throw failed;
        }
    }

    private static MemorySegment plan(Arena arena, Schema schema, Options options) {
        int count = schema.fields.size();
        MemorySegment fields = arena.allocate(Library.FIELD.size * Math.max(count, 1), 8), plan = Library.PLAN.allocate(arena);
        for (Field field : schema.fields)
            Library.FIELD.fill(fields.asSlice(Library.FIELD.size * field.number), "owner", field.monitor.number, "guard", field.monitor.number,
                "first", field.first, "is_transient", field.isTransient ? 1 : 0);
        Library.PLAN.fill(plan, "objects", schema.monitors.size(), "fields", fields.address(), "count", count, "lanes", options.lanes,
            "capacity", options.capacity, "ring", options.ring, "linger", Math.max(1, options.linger.toNanos() / 1000),
            "upgrades", options.upgrades ? 1 : 0, "must_exist", options.mustExist ? 1 : 0, "reverts", options.reverts ? 1 : 0,
            "atomic_sectors", options.atomicSectors ? 1 : 0,
            // (it takes the place of a field)
            "fingerprint", options.fingerprint.orElse(count < 16_384 ? schema.fingerprint() : 0));
        return plan;
    }

    private Heap(Schema schema, String path, Duration laneTimeout, long handle, long hook, MemorySegment found) {
        this.laneTimeout = laneTimeout;
        this.schema = schema;
        this.path = path;
        this.handle = handle;
        this.hook = hook;
        report = report(found);
        rounds = new Rounds(this);
        rounds.start();
        schema.heap = this;
    }

    /**
     * Closes the heap once all its sections are durable. If it is closed already it does nothing. {@link HeapException.Running} (a section is open,
     * or a thread waits), {@link HeapException.WriteFailed}: it is {@linkplain #stop stopped}. Another {@link HeapException.Stopped} says how it
     * had ended.
     */
    @Override public void close() {
        if (!isClosed.compareAndSet(false, true)) return;
        int status = Library.close(handle);
        ended(status == Library.OK ? null : failed(status, "close", ""), status == Library.RUNNING || status == Library.DEVICE);
    }

    /**
     * Closes the heap also if threads are in sections or wait: their calls throw {@link HeapException.Closed}, also those that sleep. Ended
     * sections are made durable first, unless they depend on an open one; the next opening drops those. If the heap is closed already it does
     * nothing. {@link HeapException.SyncFailed}, {@link HeapException.Stopped}: it has ended all the same.
     */
    public void stop() { end(Library.CLOSED); }

    /**
     * As {@link #stop}, but calls throw {@link HeapException.Abandoned} with this reason from then on: for a thread that has failed inside its
     * section.
     */
    public void abandon(String reason) {
        abandoned = reason;
        end(Library.ABANDONED);
    }

    private void end(int why) {
        if (!isClosed.compareAndSet(false, true)) return;
        int status = Library.stop(handle, why);
        ended(status == Library.OK ? null : failed(status, "stop", ""), false);
    }

    private void ended(HeapException failed, boolean stops) {
        int status = stops ? Library.stop(handle, Library.CLOSED) : Library.OK;
        if (status != Library.OK) failed.addSuppressed(failed(status, "stop", ""));
        rounds.end();
        Library.unhook(hook);
        if (failed != null) throw failed;
    }

    /** The heap must end. It stays to be closed by the program. */
    void abandonFor(String reason) {
        if (abandoned.isEmpty()) abandoned = reason;
        // (if its last write fails, the next call of each thread says so)
        Library.stop(handle, Library.ABANDONED);
    }

    // ---- sections ----

    /**
     * Does the work while the thread holds these monitors, and returns its result. An exception that leaves the work takes the section back: each
     * field has the value again that it had before the section. Then the exception goes on unchanged. What the program keeps elsewhere isn't taken
     * back.
     *
     * <p>Monitors are locked in the order of their objects, whichever is named first, so that no two threads wait for each other's. So an inner
     * section takes only monitors that come after all that is held, or that are held ({@link HeapException.OutOfOrder}). An inner section that
     * fails takes back the whole one; if the program catches its exception there, the outer one can do nothing more, and its end throws {@link
     * HeapException.Reverted}.
     *
     * <p>A section can't be taken back after it has freed a monitor under which it had stored, as at the end of an inner section. Then an exception
     * stops the heap ({@link HeapException.Abandoned}), and so it does with {@link Options#reverts(boolean) reverts(false)}. So lock all monitors
     * at once.
     *
     * <p>Throws what {@link Monitor#lock} does: the work isn't done.
     */
    public <T, X extends Throwable> T synchronizedOn(Collection<? extends Monitor> monitors, Work<T, X> work) throws X {
        Section section = enter(monitors.toArray(Monitor[]::new));
        T result;
        try {
            result = work.call();
        } catch (Throwable thrown) {
            try {
                if (!section.isOver) section.end(thrown.toString());
            } catch (HeapException failed) {
                if (failed != thrown) thrown.addSuppressed(failed);
            }
            throw thrown;
        }
        section.exit();
        return result;
    }

    /** The same for work that returns nothing. */
    public <X extends Throwable> void synchronizedOn(Collection<? extends Monitor> monitors, Action<X> action) throws X {
        synchronizedOn(monitors, () -> {
            action.run();
            return null;
        });
    }

    /** Locks these monitors as {@link #synchronizedOn} does, for a try-with-resources. {@link Section} says what ends it. */
    public Section enter(Monitor... monitors) {
        if (monitors.length == 0) throw new IllegalArgumentException("a section needs a monitor");
        for (Monitor monitor : monitors)
            if (monitor.schema != schema) throw new IllegalArgumentException(monitor + " is no object of " + path);
        if (monitors.length > 1) Arrays.sort(monitors = monitors.clone(), (one, other) -> Integer.compare(one.number, other.number));
        Lane lane = entered();
        int base = lane.depth;
        try {
            for (Monitor monitor : monitors) {
                if (lane.locks(monitor) > 0) continue;
                if (lane.isPast(monitor))
                    throw new HeapException.OutOfOrder(new Failure(path, monitor + " comes before a monitor that the thread holds",
                        "lock all of them at once, or declare it after the others", 0));
                lane.enter(monitor, Library.NO_DEADLINE);
            }
            return new Section(lane, base);
        } catch (Throwable thrown) {
            if (laneOrNull() == lane) lane.freeTo(base);
            throw thrown;
        }
    }

    /** Takes back what the open section has stored. It goes on, with its monitors held. {@link HeapException.NotHeld}: no section is open.
     * {@link HeapException.NotReverted}: nothing was taken back. */
    public void revert() { lane("a section").revert(); }

    // ---- durability ----

    /**
     * Sleeps until no crash can lose what the thread has ended. {@link HeapException.InSection}: it has a section open. {@link
     * HeapException.WriteFailed}: it isn't durable yet: call again. {@link HeapException.Stopped}: the heap has ended before that.
     */
    public void durable() { durableUntil(Library.NO_DEADLINE); }

    /** The same, for so long at most; returns whether it is durable. */
    public boolean durable(Duration timeout) { return durableUntil(deadline(timeout.toNanos())); }

    private boolean durableUntil(long deadline) {
        if (!Thread.currentThread().isVirtual()) return awaitAll(ended(), deadline);
        var future = durableAsync();
        if (deadline != Library.NO_DEADLINE) future.completeOnTimeout(false, deadline - Library.now(), TimeUnit.NANOSECONDS);
        return joined(future);
    }

    /**
     * A future that is done once no crash can lose what the thread has ended. It fails as {@link #durable} does. One thread waits for the futures
     * of all threads, and runs the stages that depend on them: keep these short, or name an executor. {@link HeapException.InSection}.
     */
    public CompletableFuture<Boolean> durableAsync() {
        Map<Lane, Long> ended = ended();
        // With a deadline that has passed this asks for the round, and doesn't sleep.
        return awaitAll(ended, 0) ? CompletableFuture.completedFuture(true) : rounds.await(Map.copyOf(ended));
    }

    /** The future's value, or the failure as it is. */
    static <T> T joined(CompletableFuture<T> future) {
        try {
            return future.join();
        } catch (CompletionException error) {
            if (error.getCause() instanceof HeapException failed) throw failed;
            throw error;
        }
    }

    private Map<Lane, Long> ended() {
        Own own = owns.get();
        if (own.lane != null) throw new HeapException.InSection(new Failure(path, "the section hasn't ended, so it can't be durable", "end it first", 0));
        if (own.last != null) own.others.put(own.last, own.ended);
        return own.others;
    }

    private boolean awaitAll(Map<Lane, Long> ended, long deadline) {
        boolean isDurable = true;
        try (Arena arena = Arena.ofConfined()) {
            MemorySegment answer = arena.allocate(JAVA_BOOLEAN);
            for (var wanted : ended.entrySet()) {
                must(Library.awaitDurable(wanted.getKey().handle, wanted.getValue(), deadline, answer), "wait for durability", "");
                isDurable &= answer.get(JAVA_BOOLEAN, 0);
            }
        }
        if (isDurable) ended.clear();
        return isDurable;
    }

    /** The moment on the library's clock that is so far away; 0 is in the past. */
    static long deadline(long nanoseconds) {
        if (nanoseconds <= 0) return 0;
        long now = Library.now();
        return nanoseconds > Long.MAX_VALUE - now ? Library.NO_DEADLINE : now + nanoseconds;
    }

    // ---- lanes ----

    /** The lane of the thread's open section, or null. */
    Lane laneOrNull() { return owns.get().lane; }

    /** The lane of the thread's open section, for what needs a monitor. */
    Lane lane(Object what) {
        Lane lane = owns.get().lane;
        if (lane == null) throw notHeld(what);
        return lane;
    }

    /** The lane of the thread's open section, or of one that begins now. */
    Lane entered() {
        Own own = owns.get();
        if (own.lane != null) return own.lane;
        Thread thread = Thread.currentThread();
        boolean isMine = own.last != null && wanting == 0 && own.last.owner.compareAndSet(null, thread);
        return own.lane = isMine ? own.last : claim(thread);
    }

    /** Takes a lane that is free, after the threads that sleep for one. */
    private Lane claim(Thread thread) {
        lock.lock();
        boolean isInterrupted = false, isFirst = wanting++ == 0;
        try {
            if (begun < report.lanes() && begin(thread)) return lanes[begun - 1];
            for (long left = laneTimeout.toNanos();; isFirst = true) {
                for (int at = 0; isFirst && at < begun; at++) if (lanes[at].owner.compareAndSet(null, thread)) return lanes[at];
                if (left <= 0) throw new HeapException.NoLane(new Failure(path, "all lanes were in use for " + laneTimeout,
                        "keep sections short, or make a heap with more lanes (32 at most)", 0));
                try {
                    left = freed.awaitNanos(left);
                } catch (InterruptedException error) {
                    isInterrupted = true;
                }
            }
        } finally {
            wanting--;
            lock.unlock();
            if (isInterrupted) thread.interrupt();
        }
    }

    /** Begins one more lane, for the thread, unless there is none. */
    private boolean begin(Thread thread) {
        try (Arena arena = Arena.ofConfined()) {
            MemorySegment made = arena.allocate(JAVA_LONG);
            int status = Library.begin(made, handle);
            if (status == Library.NONE_LEFT && begun > 0) return false;
            must(status, "begin", "");
            lanes[begun] = new Lane(this, made.get(JAVA_LONG, 0));
            lanes[begun].owner.set(thread);
            begun++;
            return true;
        }
    }

    /** The thread's section has ended. */
    void giveBack(Lane lane) {
        Own own = owns.get();
        own.lane = null;
        if (own.last != lane) {
            if (own.last != null) own.others.put(own.last, own.ended);
            own.others.remove(lane);
            own.last = lane;
        }
        own.ended = lane.ended;
        lane.owner.set(null);
        // A thread that sleeps for a lane has counted itself before it looked at this one.
        if (wanting == 0) return;
        lock.lock();
        freed.signal();
        lock.unlock();
    }

    /** Abandons the heap if a thread has ended inside a section. */
    void abandonIfLeft() {
        for (int at = 0; at < begun; at++) {
            Thread owner = lanes[at].owner.get();
            if (owner != null && !owner.isAlive()) abandonFor("a thread has ended inside a section: " + owner);
        }
    }

    // ---- looking ----

    /** The path, as it was given to {@link #open}. */
    public Path path() { return Path.of(path); }

    /** What the opening found, and which sections it kept and dropped. */
    public Report report() { return report; }

    private Report report(MemorySegment found) {
        Library.Struct row = Library.REPORT;
        int count = (int) row.get(found, "lanes");
        var kept = LongStream.range(0, count).mapToObj(lane -> found.get(JAVA_LONG, row.offset("kept") + 8 * lane)).toList();
        List<Report.Dropped> dropped = new ArrayList<>();
        try (Arena arena = Arena.ofConfined()) {
            Library.Struct one = Library.ONE_DROPPED;
            MemorySegment section = one.allocate(arena);
            for (long index = 0; index < row.get(found, "dropped"); index++) {
                must(Library.dropped(handle, index, section), "dropped", "");
                int why = (int) one.get(section, "why"), other = (int) one.get(section, "other_lane");
                if (why == 0) break;
                dropped.add(new Report.Dropped(new Report.Section((int) one.get(section, "lane"), one.get(section, "section")), Report.Why.values()[why - 1],
                    other == Library.NOBODY ? null : new Report.Section(other, one.get(section, "other_section"))));
            }
        }
        return new Report(row.get(found, "is_made") != 0, row.get(found, "is_upgraded") != 0, row.get(found, "bytes"), count,
            (int) row.get(found, "capacity"), kept, List.copyOf(dropped), row.get(found, "undone"));
    }

    /** Counts since the opening. {@link HeapException.Closed}: the heap was closed, and another has its place. */
    public Stats stats() {
        try (Arena arena = Arena.ofConfined()) {
            Library.Struct row = Library.COUNTS;
            MemorySegment counts = row.allocate(arena);
            must(Library.stats(handle, counts), "stats", "");
            var causes = Stats.Cause.values();
            return new Stats(row.get(counts, "rounds"), row.get(counts, "sections"), row.get(counts, "records"), row.get(counts, "calls"),
                row.get(counts, "syncs"), row.get(counts, "troubles"), Duration.ofNanos(row.get(counts, "calls_time")),
                Duration.ofNanos(row.get(counts, "longest_round")), row.get(counts, "one_sync_rounds"), row.get(counts, "two_sync_rounds"),
                row.get(counts, "four_sync_rounds"), (int) row.get(counts, "lent"), (int) row.get(counts, "awaiting"), (int) row.get(counts, "entering"),
                causes[(int) Math.min(row.get(counts, "last_cause"), causes.length - 1)], row.get(counts, "is_astray") != 0);
        }
    }

    /** The threads that sleep for a monitor now, and who has it. {@link HeapException.Stopped}. */
    public List<Stats.Wait> waits() {
        try (Arena arena = Arena.ofConfined()) {
            Library.Struct row = Library.ONE_WAIT;
            MemorySegment rows = arena.allocate(row.size * Library.MOST_LANES, 8), written = arena.allocate(JAVA_LONG);
            must(Library.waits(handle, rows, Library.MOST_LANES, written), "waits", "");
            return rows.asSlice(0, row.size * written.get(JAVA_LONG, 0)).elements(row.layout()).map(wait -> new Stats.Wait(ownerOf(row.get(wait, "lane")),
                schema.monitors.get((int) row.get(wait, "object")), ownerOf(row.get(wait, "owner")), row.get(wait, "in_circle") != 0)).toList();
        }
    }

    private Thread ownerOf(long lane) {
        for (int at = 0; at < begun; at++) if (lanes[at].number == lane) return lanes[at].owner.get();
        return null;
    }

    /**
     * Writes a copy of the heap, with all that was durable when the call began, while threads go on. {@link HeapException.CopyFailed}: what was at
     * the path stays. {@link HeapException.Stopped}.
     */
    public void copyTo(Path copy) {
        try (Arena arena = Arena.ofConfined()) {
            int status = Library.copy(handle, arena.allocateFrom(copy.toString()));
            if (status == Library.DEVICE || status == Library.BUSY) throw new HeapException.CopyFailed(Library.failure("copy to", copy));
            must(status, "copy to", copy);
        }
    }

    // ---- failures ----

    HeapException closed() { return new HeapException.Closed(new Failure(path, "the heap was closed or stopped", "open it again", 0)); }

    HeapException notHeld(Object what) {
        return isClosed.get() ? closed()
            : new HeapException.NotHeld(new Failure(path, what + ": the thread doesn't hold its monitor", "use it inside synchronizedOn or enter", 0));
    }

    void must(int status, String verb, Object what) {
        if (status != Library.OK) throw failed(status, verb, what);
    }

    /**
     * The exception for a status of the calling thread's last call. The failure is fetched first: nothing comes between that might unmount the
     * thread.
     */
    HeapException failed(int status, String verb, Object what) {
        Failure failure = Library.failure(verb, what);
        return switch (status) {
            case Library.NOTHING, Library.CLOSED -> new HeapException.Closed(failure);
            case Library.ABANDONED -> new HeapException.Abandoned(new Failure(failure.path(), failure.reason() + ": " + abandoned, failure.cure(), 0));
            case Library.LOST -> new HeapException.SyncFailed(failure);
            case Library.FAILED, Library.FORKED -> new HeapException.Failed(failure);
            case Library.NOT_HELD -> new HeapException.NotHeld(failure);
            case Library.NOT_REVERTED -> new HeapException.NotReverted(failure);
            case Library.SECTION_FULL -> new HeapException.SectionFull(failure);
            case Library.TOO_MANY, Library.TOO_DEEP -> new HeapException.TooMany(failure);
            case Library.RUNNING -> new HeapException.Running(failure);
            case Library.DEVICE -> new HeapException.WriteFailed(failure);
            // A monitor's number doesn't end the heap, and the control's does.
            case Library.WORN -> what instanceof Monitor ? new HeapException.LimitReached(failure) : new HeapException.Failed(failure);
            default -> new HeapException.LimitReached(failure);
        };
    }

    private static HeapException notOpened(int status, Schema schema, MemorySegment report) {
        Failure failure = Library.failure("open", "");
        long field = Library.REPORT.get(report, "field"), difference = Library.REPORT.get(report, "difference");
        return switch (status) {
            case Library.BAD_ARGUMENT -> new HeapException.BadSchema(failure);
            case Library.BUSY -> new HeapException.Busy(failure);
            case Library.NO_HEAP -> new HeapException.NoHeap(failure);
            case Library.NOT_FORMATTED -> new HeapException.NotAHeap(failure);
            case Library.OTHER_HEAP -> new HeapException.OtherHeap(difference >= 4 && difference <= 6 && field < schema.fields.size()
                ? new Failure(failure.path(), schema.fields.get((int) field) + ": " + failure.reason(), failure.cure(), 0) : failure);
            case Library.OLD_VERSION -> new HeapException.OldVersion(failure);
            case Library.DAMAGED_FILE -> new HeapException.DamagedFile(failure);
            default -> new HeapException.FileFailed(failure);
        };
    }
}
