package zelamiku;

/**
 * Monitors that are held inside a try-with-resources: {@link Heap#enter} locks them.
 *
 * {@snippet :
 * try (Section section = heap.enter(bank.alice, bank.bob)) {
 *     bank.alice.balance.add(-10);
 *     bank.bob.balance.add(10);
 *     section.exit();
 * }
 * }
 *
 * {@code close()} can't know whether an exception leaves the block. So whatever leaves it before {@link #exit} takes the section back. Only the
 * thread that made a section may use it: WrongThreadException.
 */
public final class Section implements AutoCloseable {
    final Section outer;
    boolean isOver;
    private final Lane lane;
    private final Thread owner = Thread.currentThread();
    private final int base;

    Section(Lane lane, int base) {
        this.lane = lane;
        this.base = base;
        outer = lane.innermost;
        lane.innermost = this;
    }

    /**
     * Unlocks the monitors, and keeps what the section has stored. IllegalStateException: it has ended already.
     * {@link HeapException.Reverted}, {@link HeapException.OutOfOrder} (an inner section is open): all that was stored is taken back.
     * {@link HeapException.Stopped}: the section was cut off. The monitors are unlocked in each case.
     */
    public void exit() {
        mustBeOwners();
        if (isOver) throw new IllegalStateException("the section has ended already");
        end(null);
    }

    /** Takes back what the section has stored, with the section around it, and unlocks the monitors. After {@link #exit} it does nothing. */
    @Override public void close() {
        mustBeOwners();
        if (!isOver) end("it has ended without exit()");
    }

    private void mustBeOwners() {
        if (Thread.currentThread() != owner) throw new WrongThreadException("the section belongs to " + owner);
    }

    void end(String failure) {
        boolean isLeft = lane.innermost != this;
        for (; lane.innermost != outer; lane.innermost = lane.innermost.outer) lane.innermost.isOver = true;
        String cause = isLeft ? "a section inside it was left open" : failure;
        if (cause != null) lane.fail(cause, base > 0);
        HeapException failed = lane.freeTo(base);
        if (failed == null && isLeft)
            failed = new HeapException.OutOfOrder(new HeapException.Failure(lane.heap.path, cause, "end sections in the reverse order of their beginning", 0));
        if (failed != null) throw failed;
    }
}
