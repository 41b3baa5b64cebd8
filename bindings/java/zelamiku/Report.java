package zelamiku;

import java.util.List;

/**
 * What an opening found ({@link Heap#report}).
 *
 * @param isMade the path had no heap, and this opening made one
 * @param isUpgraded the heap had an older version
 * @param bytes the size of the file
 * @param lanes the lanes of threads; the helper's isn't counted
 * @param capacity the records that a lane's log holds
 * @param kept how many sections of each lane recovery kept, since the opening before
 * @param dropped the sections that it dropped, by lane and then by number. None of them was durable
 * @param undone how many fields it has set back to an old value; 0 if no section was dropped
 */
public record Report(boolean isMade, boolean isUpgraded, long bytes, int lanes, int capacity, List<Long> kept, List<Dropped> dropped, long undone) {
    /** A section of a lane: its number counts from 1, since the opening before. */
    public record Section(int lane, long number) {}

    /** A section that recovery dropped. {@code after} is the section on which it depends, for {@link Why#DEPENDED}; otherwise null. */
    public record Dropped(Section section, Why why, Section after) {}

    /** Why a section was dropped. */
    public enum Why {
        /** It hadn't ended. */
        NOT_ENDED,
        /** It depends on another one that wasn't kept. */
        DEPENDED,
        /** It had ended, and wasn't durable. */
        UNSETTLED
    }
}
