package zelamiku;

import java.time.Duration;
import java.util.OptionalLong;

/** How a heap is opened: {@code new Options().lanes(16).mustExist(true)}. Each method sets one option, and returns this. */
public final class Options {
    int lanes = 8, capacity, ring = 16_384;
    Duration linger = Duration.ofMillis(5), laneTimeout = Duration.ofSeconds(30);
    boolean mustExist, upgrades, reverts = true, atomicSectors;
    OptionalLong fingerprint = OptionalLong.empty();
    System.Logger log = System.getLogger("zelamiku");

    /**
     * The defaults: 8 lanes, a linger of 5 ms, 30 seconds for a lane, reverts, a fingerprint of the names, and {@code
     * System.getLogger("zelamiku")}.
     */
    public Options() {}

    /** How many threads are in sections at once, 1 to 32; with 31 or fewer a round takes two syncs, or one. There may be more threads. */
    public Options lanes(int count) { lanes = count; return this; }

    /** Records of a lane's ring in memory, 4,096 to 65,536, and of its log in a new file, 2,000 to 1,048,576; 0 is as the ring. */
    public Options sizes(int ringRecords, int logRecords) { ring = ringRecords; capacity = logRecords; return this; }

    /** How long a section that nobody waits for may lie before a round makes it durable. */
    public Options linger(Duration time) { linger = time; return this; }

    /** How long a section waits for a lane, before it is {@link HeapException.NoLane}. */
    public Options laneTimeout(Duration time) { laneTimeout = time; return this; }

    /** Whether a path without a heap is refused, and no file made: {@link HeapException.NoHeap}. */
    public Options mustExist(boolean yes) { mustExist = yes; return this; }

    /** Whether a heap of an older version is upgraded in place. */
    public Options upgrades(boolean yes) { upgrades = yes; return this; }

    /** Whether a section that fails is taken back. Otherwise it stops the heap, and a section has room for twice as many stores. */
    public Options reverts(boolean yes) { reverts = yes; return this; }

    /**
     * Whether a heap that is made gets a journal, and a round takes one sync. Only for storage that keeps each sector of 512 bytes whole when the
     * power fails, as NVMe with power-loss protection and Ceph RBD do. Elsewhere such a heap may lose what was durable, and nothing notices. A heap
     * that is there keeps what it has ({@link Stats#oneSyncRounds}).
     */
    public Options atomicSectors(boolean yes) { atomicSectors = yes; return this; }

    /** The number that a new heap keeps, and that each opening must have, in the place of one that is computed from the names; 0: none. */
    public Options fingerprint(long number) { fingerprint = OptionalLong.of(number); return this; }

    /**
     * Gets a line for each opening (DEBUG), failed write, end of trouble, circle of threads that wait for each other, and end. Any thread may call
     * it, and it must not use the heap. null: there is no log.
     */
    public Options log(System.Logger logger) { log = logger; return this; }
}
