package zelamiku;

import static java.lang.foreign.ValueLayout.*;

import java.lang.foreign.*;
import java.lang.invoke.*;
import java.nio.file.*;
import java.util.*;
import java.util.concurrent.ConcurrentHashMap;
import java.util.concurrent.atomic.AtomicLong;

/**
 * The calls of libzelamiku.so.1, by the declarations of zelamiku.h: all that knows C is here. Each method returns the library's status.
 *
 * <p>Handles are numbers that the library checks, and what it writes to is memory of an automatic arena. So no misuse reaches memory that was
 * freed. A failure is kept for the system's thread: {@link #failure} must be called by the thread that made the call, with nothing between that
 * may unmount a virtual thread.
 */
final class Library {
    static final int OK = 0, NOTHING = 1, NONE_LEFT = 6, RUNNING = 9, NOT_HELD = 12, BEHIND = 13, SECTION_FULL = 14, TOO_MANY = 15,
        TOO_DEEP = 16, WORN = 18, HELD = 19, FAILED = 22, BAD_ARGUMENT = 24, NOT_FORMATTED = 25, DEVICE = 32, LOST = 33, BUSY = 34,
        CLOSED = 39, OLD_VERSION = 40, FORKED = 41, ABANDONED = 42, OTHER_HEAP = 43, NO_HEAP = 45, DAMAGED_FILE = 46, NOT_REVERTED = 47;
    static final int MOST_LANES = 32, NOBODY = 64;
    static final long NO_DEADLINE = -1;
    private static final int VERSION = 200;
    private static final String NAME = "libzelamiku.so.1", PROPERTY = "zelamiku.library";

    private static final Linker LINKER = Linker.nativeLinker();
    private static String missing = "";
    private static final SymbolLookup SYMBOLS = find();
    private static final MethodHandle OPEN = call("heap_open", ADDRESS, ADDRESS, ADDRESS, ADDRESS), CLOSE = call("heap_close", JAVA_LONG),
        STOP = call("heap_stop", JAVA_LONG, JAVA_INT), COPY = call("heap_copy", JAVA_LONG, ADDRESS), STATS = call("heap_stats", JAVA_LONG, ADDRESS),
        DROPPED = call("heap_dropped", JAVA_LONG, JAVA_LONG, ADDRESS), WAITS = call("heap_waits", JAVA_LONG, ADDRESS, JAVA_LONG, ADDRESS),
        AWAIT_ROUND = call("heap_await_round", JAVA_LONG, JAVA_LONG, JAVA_LONG, ADDRESS), BEGIN = call("thread_begin", ADDRESS, JAVA_LONG),
        ENTER = call("thread_enter_until", JAVA_LONG, JAVA_INT, JAVA_LONG), EXIT = call("thread_exit", JAVA_LONG, JAVA_INT),
        REVERT = call("thread_revert", JAVA_LONG), WAIT = call("thread_wait", JAVA_LONG, JAVA_INT),
        NOTIFY = call("thread_notify", JAVA_LONG, JAVA_INT, JAVA_BOOLEAN, ADDRESS), PROGRESS = call("thread_progress", JAVA_LONG, ADDRESS),
        AWAIT = call("thread_await_until", JAVA_LONG, JAVA_LONG, JAVA_LONG, ADDRESS),
        // They are short in all cases, call nothing of Java, and never sleep.
        LOAD = shortCall("thread_load", JAVA_LONG, JAVA_INT, ADDRESS), STORE = shortCall("thread_store", JAVA_LONG, JAVA_INT, JAVA_LONG);
    private static final MethodHandle FAILURE = handle("heap_failure", FunctionDescriptor.of(ADDRESS, ADDRESS));

    /** The members of the structs, in order: 4 bytes each, 8 with a {@code :}. */
    static final Struct PLAN = new Struct("size objects fields: count lanes capacity ring linger upgrades must_exist reverts fingerprint: log: log_context: device: "
            + "atomic_sectors reserved"),
        REPORT = new Struct("size is_made is_upgraded objects fields lanes capacity damage bad_lane difference field reserved has: planned: bad_place: bytes: "
            + "dropped: undone: kept:" + " more:".repeat(MOST_LANES - 1)),
        ONE_DROPPED = new Struct("size why lane other_lane section: other_section:"),
        COUNTS = new Struct("size lent awaiting entering last_cause is_astray rounds: sections: records: calls: syncs: troubles: calls_time: longest_round: "
            + "two_sync_rounds: four_sync_rounds: one_sync_rounds:"),
        ONE_WAIT = new Struct("lane object owner in_circle"), FIELD = new Struct("owner guard first: is_transient padding"),
        WHY = new Struct("size status error object field reserved path: call: cause: cure:"),
        HOW_FAR = new Struct("size lane is_open end sections: durable: earlier:");

    private static final MethodHandle NOW = handle("now", FunctionDescriptor.of(JAVA_LONG), Linker.Option.critical(false)),
        STRERROR = LINKER.downcallHandle(LINKER.defaultLookup().find("strerror").orElseThrow(), FunctionDescriptor.of(ADDRESS, JAVA_INT));

    private Library() {}

    // ---- finding it ----

    private static SymbolLookup find() {
        String named = System.getProperty(PROPERTY);
        Path beside = besideJar();
        String where = named != null ? named : beside != null && Files.exists(beside) ? beside.toString() : NAME;
        try {
            SymbolLookup found = SymbolLookup.libraryLookup(where, Arena.global());
            int version = (int) LINKER.downcallHandle(found.find("zelamiku_version").orElseThrow(), FunctionDescriptor.of(JAVA_INT)).invokeExact();
            if (version == VERSION) return found;
            missing = where + " has version " + version + ", and this package is for " + VERSION;
        } catch (IllegalArgumentException | NoSuchElementException error) {
            missing = where + " can't be loaded: " + error.getMessage();
        } catch (Throwable error) {
            throw new AssertionError(error);
        }
        return name -> Optional.empty();
    }

    private static Path besideJar() {
        var source = Library.class.getProtectionDomain().getCodeSource();
        try {
            return source == null ? null : Path.of(source.getLocation().toURI()).resolveSibling(NAME);
        } catch (java.net.URISyntaxException | RuntimeException error) {
            return null; // the class isn't from a file
        }
    }

    /** NoLibrary: there is none. */
    static void mustBeThere() {
        if (!missing.isEmpty())
            throw new HeapException.NoLibrary(new HeapException.Failure(NAME, missing,
                "name it by -D" + PROPERTY + "=PATH, put it beside the jar, or install it", 0));
    }

    private static MethodHandle call(String name, MemoryLayout... arguments) { return handle(name, FunctionDescriptor.of(JAVA_INT, arguments)); }

    private static MethodHandle shortCall(String name, MemoryLayout... arguments) {
        return handle(name, FunctionDescriptor.of(JAVA_INT, arguments), Linker.Option.critical(false));
    }

    private static MethodHandle handle(String name, FunctionDescriptor type, Linker.Option... options) {
        return SYMBOLS.find("zelamiku_" + name).map(symbol -> LINKER.downcallHandle(symbol, type, options)).orElse(null);
    }

    // ---- calls ----

    static int open(MemorySegment heap, MemorySegment path, MemorySegment plan, MemorySegment report) {
        try { return (int) OPEN.invokeExact(heap, path, plan, report); } catch (Throwable error) { throw bug(error); }
    }
    static int close(long heap) { try { return (int) CLOSE.invokeExact(heap); } catch (Throwable error) { throw bug(error); } }
    static int stop(long heap, int why) { try { return (int) STOP.invokeExact(heap, why); } catch (Throwable error) { throw bug(error); } }
    static int copy(long heap, MemorySegment path) {
        try { return (int) COPY.invokeExact(heap, path); } catch (Throwable error) { throw bug(error); }
    }
    static int stats(long heap, MemorySegment stats) {
        try { return (int) STATS.invokeExact(heap, stats); } catch (Throwable error) { throw bug(error); }
    }
    static int dropped(long heap, long index, MemorySegment dropped) {
        try { return (int) DROPPED.invokeExact(heap, index, dropped); } catch (Throwable error) { throw bug(error); }
    }
    static int waits(long heap, MemorySegment waits, long count, MemorySegment written) {
        try { return (int) WAITS.invokeExact(heap, waits, count, written); } catch (Throwable error) { throw bug(error); }
    }
    static int awaitRound(long heap, long seen, long deadline, MemorySegment rounds) {
        try { return (int) AWAIT_ROUND.invokeExact(heap, seen, deadline, rounds); } catch (Throwable error) { throw bug(error); }
    }
    static int begin(MemorySegment thread, long heap) {
        try { return (int) BEGIN.invokeExact(thread, heap); } catch (Throwable error) { throw bug(error); }
    }
    static int enter(long thread, int object, long deadline) {
        try { return (int) ENTER.invokeExact(thread, object, deadline); } catch (Throwable error) { throw bug(error); }
    }
    static int exit(long thread, int object) { try { return (int) EXIT.invokeExact(thread, object); } catch (Throwable error) { throw bug(error); } }
    static int revert(long thread) { try { return (int) REVERT.invokeExact(thread); } catch (Throwable error) { throw bug(error); } }
    static int await(long thread, int object) { try { return (int) WAIT.invokeExact(thread, object); } catch (Throwable error) { throw bug(error); } }
    static int signal(long thread, int object, boolean all, MemorySegment lanes) {
        try { return (int) NOTIFY.invokeExact(thread, object, all, lanes); } catch (Throwable error) { throw bug(error); }
    }
    static int load(long thread, int field, MemorySegment value) {
        try { return (int) LOAD.invokeExact(thread, field, value); } catch (Throwable error) { throw bug(error); }
    }
    static int store(long thread, int field, long value) {
        try { return (int) STORE.invokeExact(thread, field, value); } catch (Throwable error) { throw bug(error); }
    }
    static int awaitDurable(long thread, long sections, long deadline, MemorySegment isDurable) {
        try { return (int) AWAIT.invokeExact(thread, sections, deadline, isDurable); } catch (Throwable error) { throw bug(error); }
    }
    private static int progress(long thread, MemorySegment progress) {
        try { return (int) PROGRESS.invokeExact(thread, progress); } catch (Throwable error) { throw bug(error); }
    }
    /** The library's clock, in nanoseconds. */
    static long now() { try { return (long) NOW.invokeExact(); } catch (Throwable error) { throw bug(error); } }

    private static AssertionError bug(Throwable error) { return new AssertionError("a call of " + NAME, error); }

    /** One of the numbers that say how far a thread is. After its handle has ended it is 0. */
    static long progress(long thread, String member) {
        try (Arena arena = Arena.ofConfined()) {
            MemorySegment progress = HOW_FAR.allocate(arena);
            return progress(thread, progress) == OK ? HOW_FAR.get(progress, member) : 0;
        }
    }

    /** Why the calling thread's last call that failed has failed; it was to do this. */
    static HeapException.Failure failure(String verb, Object what) {
        try (Arena arena = Arena.ofConfined()) {
            MemorySegment why = WHY.allocate(arena);
            MemorySegment line = (MemorySegment) FAILURE.invokeExact(why);
            int errno = (int) WHY.get(why, "error");
            String system = errno == 0 ? "" : ": " + ((MemorySegment) STRERROR.invokeExact(errno)).reinterpret(Long.MAX_VALUE).getString(0);
            String reason = (verb + " " + what).strip() + ": " + WHY.text(why, "cause") + system;
            return new HeapException.Failure(WHY.text(why, "path"), reason, WHY.text(why, "cure"), errno);
        } catch (Throwable error) {
            throw bug(error);
        }
    }

    // ---- the log hook: one for all heaps, so that it is never freed ----

    private static final Map<Long, System.Logger> LOGS = new ConcurrentHashMap<>();
    private static final MemorySegment HOOK = LINKER.upcallStub(logged(), FunctionDescriptor.ofVoid(ADDRESS, JAVA_INT, ADDRESS), Arena.global());

    private static MethodHandle logged() {
        try {
            return MethodHandles.lookup().findStatic(Library.class, "log", MethodType.methodType(void.class, MemorySegment.class, int.class, MemorySegment.class));
        } catch (ReflectiveOperationException error) {
            throw new AssertionError(error);
        }
    }

    /** Called by C. An exception that left it would end the process. */
    private static void log(MemorySegment context, int level, MemorySegment text) {
        try {
            System.Logger logger = LOGS.get(context.address());
            System.Logger.Level[] levels = {System.Logger.Level.DEBUG, System.Logger.Level.WARNING, System.Logger.Level.ERROR};
            if (logger != null) logger.log(levels[Math.clamp(level, 0, 2)], text.reinterpret(Long.MAX_VALUE).getString(0));
        } catch (Throwable error) {
            error.printStackTrace();
        }
    }

    /** Lets the plan's heap log there, until {@link #unhook} of the returned number. */
    static long hook(MemorySegment plan, System.Logger logger) {
        long number = NUMBERS.incrementAndGet();
        LOGS.put(number, logger);
        PLAN.fill(plan, "log", HOOK.address(), "log_context", number);
        return number;
    }

    private static final AtomicLong NUMBERS = new AtomicLong();

    static void unhook(long number) { LOGS.remove(number); }

    // ---- structs ----

    /** A struct of C, whose members are read and written by name, where speed doesn't matter. Those with a {@code :} have 8 bytes, others 4. */
    static final class Struct {
        private final Map<String, Long> longs = new HashMap<>(), ints = new HashMap<>();
        final long size;

        Struct(String members) {
            long at = 0;
            for (String member : members.split(" ")) {
                if (member.endsWith(":")) {
                    at = at + 7 & ~7;
                    longs.put(member.substring(0, member.length() - 1), at);
                    at += 8;
                } else {
                    ints.put(member, at);
                    at += 4;
                }
            }
            size = at;
        }

        /** A struct of zeros, with its size if it has one. */
        MemorySegment allocate(SegmentAllocator memory) {
            MemorySegment made = memory.allocate(size, 8);
            if (ints.containsKey("size")) fill(made, "size", size);
            return made;
        }

        long offset(String member) { return longs.get(member); }

        MemoryLayout layout() { return MemoryLayout.sequenceLayout(size / 4, JAVA_INT); }

        /** Writes members: their names, and after each its value. */
        void fill(MemorySegment struct, Object... members) {
            for (int at = 0; at < members.length; at += 2) {
                long value = ((Number) members[at + 1]).longValue();
                if (ints.containsKey(members[at])) struct.set(JAVA_INT, ints.get(members[at]), (int) value);
                else struct.set(JAVA_LONG, longs.get(members[at]), value);
            }
        }

        /** A member's value: of 4 bytes it has no sign. */
        long get(MemorySegment struct, String member) {
            return ints.containsKey(member) ? Integer.toUnsignedLong(struct.get(JAVA_INT, ints.get(member))) : struct.get(JAVA_LONG, longs.get(member));
        }

        String text(MemorySegment struct, String member) { return struct.get(ADDRESS, longs.get(member)).reinterpret(Long.MAX_VALUE).getString(0); }
    }
}
