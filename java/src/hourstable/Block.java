package hourstable;

import java.util.Arrays;
import java.util.function.LongSupplier;

/**
 * A block of work on a key, for {@link Slicelet#enter} and {@link Slicelet#leave}: what the last call passed and wrote. One
 * thread at a time uses it, for one block after the other if it likes.
 */
public final class Block {
    private static final int LINE = 512;
    private static final int TOLD = 6;
    private static final int LENGTH = 12;
    private static final int NO_ROOM = -2;

    /** Those of the library's struct, and how many bytes the line has, -1 if no call was made. */
    final long[] numbers = new long[13];
    byte[] room;

    /** A native of a block, at a local reading. */
    interface Call {
        int make(long now);
    }

    /** A block whose calls write lines, or none. */
    public Block(boolean hasLines) {
        room = new byte[hasLines ? LINE : 0];
        numbers[LENGTH] = -1;
    }

    /** The task's reading at which the last call was made. */
    public long at() {
        return numbers[1];
    }

    /** What enter took, and leave checks. */
    public Slicelet.Handle handle() {
        return Slicelet.Handle.of(numbers, 2);
    }

    /** Whether the last call was made. If not, the clock refused, and there is no line. */
    public boolean isCalled() {
        return numbers[LENGTH] >= 0;
    }

    /** The line of the last call for the log, with its line feed; empty if none was wanted. */
    public byte[] line() {
        return Arrays.copyOf(room, (int) Math.max(0, numbers[LENGTH]));
    }

    /** What enter told. */
    long[] told() {
        return Arrays.copyOfRange(numbers, TOLD, LENGTH);
    }

    /**
     * Makes a call at a local reading, which is taken while no other call of the clock runs. If its line finds no room, makes
     * it again, which has changed nothing, with more.
     */
    int call(TaskClock clock, LongSupplier local, long ticket, Call call) {
        numbers[0] = ticket;
        numbers[LENGTH] = -1;
        synchronized (clock) {
            long now = local.getAsLong();
            int code = call.make(now);
            if (code == NO_ROOM) {
                room = new byte[(int) numbers[LENGTH]];
                code = call.make(now);
            }
            return code;
        }
    }
}
