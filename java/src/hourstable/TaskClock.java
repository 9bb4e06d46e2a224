package hourstable;

import java.util.function.LongSupplier;

/**
 * Gives the readings of a task, from answers of the table and a local clock that counts while the machine is suspended, such
 * as {@link #boottimeTicks}. A new life of a task has a new clock. Any threads may use one clock at the same time.
 */
public final class TaskClock {
    /**
     * How far the clock may fall behind the table's: while the local clock gains {@code per} ticks, that of the table gains
     * at most {@code per} + {@code extra}, and {@code grain} ticks more.
     */
    public record Drift(long extra, long per, long grain) {}

    /** Those of the library's struct. */
    final long[] numbers = new long[10];

    /**
     * A clock with no sample. {@code oldest} is how many ticks the task goes on without an answer of the table. HS_WRONG_FORM
     * if {@code per} of the drift is 0.
     */
    public TaskClock(Drift drift, long oldest) throws Refused {
        int code = Native.taskClockNew(numbers, drift.extra(), drift.per(), drift.grain(), oldest);
        Refused.check(code, new long[5]);
    }

    /**
     * Takes an answer of the table: the local reading before its request was sent, the table's reading that it carries, and
     * the local reading now. HS_CLOCK_BACK, HS_SENT_AHEAD.
     */
    public synchronized void sample(long sent, long reading, long now) throws Refused {
        Refused.check(Native.taskClockSample(numbers, sent, reading, now), new long[5]);
    }

    /**
     * The task's reading at the local reading {@code now}. Threads that share a clock may get here in another order than they
     * read the local clock in: they call {@link #readNow}. HS_CLOCK_BACK, HS_NO_SAMPLE, HS_TOO_OLD, HS_TOO_LARGE.
     */
    public synchronized long read(long now) throws Refused {
        long[] out = new long[1];
        Refused.check(Native.taskClockRead(numbers, now, out), new long[5]);
        return out[0];
    }

    /** The task's reading at that of a local clock, which is read while no other call of this one runs. */
    public synchronized long readNow(LongSupplier local) throws Refused {
        return read(local.getAsLong());
    }

    /**
     * CLOCK_BOOTTIME of Linux in ticks of a millisecond. It counts while the machine is suspended, as the local clock of a
     * task must; {@code System.nanoTime} does not.
     */
    public static long boottimeTicks() {
        return Native.boottimeTicks();
    }
}
