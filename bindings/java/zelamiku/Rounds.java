package zelamiku;

import static java.lang.foreign.ValueLayout.JAVA_LONG;

import java.lang.foreign.Arena;
import java.lang.foreign.MemorySegment;
import java.util.*;
import java.util.concurrent.*;
import java.util.concurrent.locks.LockSupport;

/** A heap's thread that waits for rounds, for the futures of all threads. Each second it looks whether a thread has ended inside a section. */
final class Rounds {
    private static final long SECOND = 1_000_000_000;

    private final Heap heap;
    private final Queue<Waiting> waiting = new ConcurrentLinkedQueue<>();
    private final Thread thread = Thread.ofPlatform().daemon().name("zelamiku-rounds").unstarted(this::run);
    private volatile boolean isOver;
    /** Why the thread has ended, or null. */
    private volatile HeapException end;

    /** A future that is done once each of these lanes has so many durable sections. */
    private record Waiting(Map<Lane, Long> ended, CompletableFuture<Boolean> future) {}

    Rounds(Heap heap) { this.heap = heap; }

    void start() { thread.start(); }

    CompletableFuture<Boolean> await(Map<Lane, Long> ended) {
        Waiting one = new Waiting(ended, new CompletableFuture<>());
        waiting.add(one);
        LockSupport.unpark(thread);
        if (end != null) settle(end);
        return one.future;
    }

    /** The heap has ended. */
    void end() {
        isOver = true;
        LockSupport.unpark(thread);
    }

    private void run() {
        HeapException failed = null;
        try (Arena arena = Arena.ofConfined()) {
            MemorySegment rounds = arena.allocate(JAVA_LONG);
            for (long looked = System.nanoTime();;) {
                settle(failed);
                if (isOver && waiting.isEmpty()) break;
                failed = null;
                if (waiting.isEmpty()) {
                    LockSupport.parkNanos(this, SECOND);
                } else {
                    int status = Library.awaitRound(heap.handle, rounds.get(JAVA_LONG, 0), Heap.deadline(SECOND), rounds);
                    if (status != Library.OK) failed = heap.failed(status, "wait for durability", "");
                }
                if (System.nanoTime() - looked < SECOND) continue;
                looked = System.nanoTime();
                heap.abandonIfLeft();
            }
        }
        // A future that comes from now on is settled by its own thread.
        end = failed != null ? failed : heap.closed();
        settle(end);
    }

    /** Completes the futures whose sections are durable; after a failure all others fail. */
    private void settle(HeapException failed) {
        Map<Lane, Long> durable = new HashMap<>();
        for (var each = waiting.iterator(); each.hasNext();) {
            Waiting one = each.next();
            boolean isDurable = one.ended.entrySet().stream().allMatch(
                wanted -> durable.computeIfAbsent(wanted.getKey(), lane -> Library.progress(lane.handle, "durable")) >= wanted.getValue());
            if (!isDurable && failed == null) continue;
            each.remove();
            if (isDurable) one.future.complete(true);
            else one.future.completeExceptionally(failed);
        }
    }
}
