package zelamiku;

import java.time.Duration;

/**
 * Counts since the opening ({@link Heap#stats}), of moments close to each other.
 *
 * @param rounds rounds that have ended, also those with a failed call
 * @param sections sections that are durable
 * @param records records that rounds took
 * @param calls calls of the file, syncs among them
 * @param syncs syncs of the file
 * @param troubles rounds with a failed write
 * @param callsTime the time in the calls of all rounds
 * @param longestRound from its first record to its last call
 * @param oneSyncRounds rounds with one sync: the heap has a journal ({@link Options#atomicSectors})
 * @param twoSyncRounds rounds with two
 * @param fourSyncRounds rounds with four: the heap has no lane for the helper, or that lane has no room for what the round changed; or the heap's
 *     journal hasn't
 * @param lent lanes that the heap has handed out
 * @param awaiting threads that wait until their sections are durable, or until there is room
 * @param entering threads that sleep for a monitor
 * @param lastCause why the last round came
 * @param isAstray the path doesn't lead to the heap's file any more: it was removed or replaced
 */
public record Stats(long rounds, long sections, long records, long calls, long syncs, long troubles, Duration callsTime, Duration longestRound,
                    long oneSyncRounds, long twoSyncRounds, long fourSyncRounds, int lent, int awaiting, int entering, Cause lastCause,
                    boolean isAstray) {
    /** Why a round came. */
    public enum Cause {
        /** There was none yet. */
        NONE,
        /** For a reason that this release doesn't know. */
        OTHER,
        /** A thread waits until its sections are durable. */
        AWAITED,
        /** A thread has no room for a section's records. */
        ROOM,
        /** A lane has sent three quarters of what its ring or its log takes. */
        FULL,
        /** The linger has passed. */
        LINGER,
        /** A write had failed a second before. */
        AGAIN,
        /** The heap was being closed. */
        CLOSING,
        /** The last round has reached its bound and left records. */
        LEFT
    }

    /**
     * A thread that sleeps for a monitor ({@link Heap#waits}).
     *
     * @param thread the thread; null if it has just woken
     * @param owner the thread that has the monitor; null if it has just been freed
     * @param inCircle it waits in a circle of threads, none of which can go on
     */
    public record Wait(Thread thread, Monitor monitor, Thread owner, boolean inCircle) {}
}
