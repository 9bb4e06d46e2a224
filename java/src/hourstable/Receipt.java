package hourstable;

import java.util.Arrays;
import java.util.function.LongSupplier;

/**
 * A grant that a task received, for {@link Slicelet#receive}: what the last call passed and wrote. One thread at a time uses
 * it, for one grant after the other if it likes.
 */
public final class Receipt {
    private static final int LINE = 512;
    private static final int TOLD = 2;
    private static final int EVIDENCE = 8;
    private static final int LENGTH = 9;
    private static final int NO_ROOM = -2;

    /** Those of the library's struct, and how many bytes the line has, -1 if no call was made. */
    final long[] numbers = new long[10];
    byte[] room;

    /** A receipt whose calls write lines, or none. */
    public Receipt(boolean hasLines) {
        room = new byte[hasLines ? LINE : 0];
        numbers[LENGTH] = -1;
    }

    /** The task's reading at which the last call was made. */
    public long at() {
        return numbers[1];
    }

    /** Whether the grant shows that clocks are not timely, and was not heard. */
    public boolean isEvidence() {
        return numbers[EVIDENCE] != 0;
    }

    /** Whether the last call was made. If not, the clock refused or the message is no grant of the job: there is no line. */
    public boolean isCalled() {
        return numbers[LENGTH] >= 0;
    }

    /** The line of the last call for the log, with its line feed; empty if none was wanted or the grant is evidence. */
    public byte[] line() {
        return Arrays.copyOf(room, (int) Math.max(0, numbers[LENGTH]));
    }

    /** What the call told. */
    long[] told() {
        return Arrays.copyOfRange(numbers, TOLD, EVIDENCE);
    }

    /** Makes a call, as that of a block is made. The first one finds room: the line has what the grant says. */
    int call(TaskClock clock, LongSupplier local, long ticket, int grantLength, Block.Call call) {
        if (room.length > 0 && room.length < LINE + grantLength) {
            room = new byte[LINE + grantLength];
        }
        Arrays.fill(numbers, 0);
        numbers[0] = ticket;
        numbers[LENGTH] = -1;
        synchronized (clock) {
            long now = local.getAsLong();
            int code = call.make(now);
            while (code == NO_ROOM) {
                room = new byte[(int) numbers[LENGTH]];
                code = call.make(now);
            }
            return code;
        }
    }
}
