package hourstable;

import java.nio.charset.StandardCharsets;
import java.util.ArrayList;
import java.util.List;
import java.util.Optional;

/**
 * The lease table of a job. Readings are those of the table's clock, and all numbers are unsigned. A job has one table at a
 * time: it is made once, and from then on restored from what {@link #kept} or {@link #save} returned, which is saved before
 * the reply to a call that changed the table leaves the process. Any threads may use one table at the same time.
 */
public final class Table extends Place {
    /** The policy of a table: guard, bridge, job and numbers are 1 to 2^32. */
    public record Policy(long low, long high, long skew, long guard, long bridge, long job, long numbers) {
        long[] numbersOf() {
            return new long[] {low, high, skew, guard, bridge, job, numbers};
        }
    }

    /** A term of the job lease. It ends at the reading {@code until}. */
    public record Term(long number, long assigner, long until) {}

    /** The phase of a table. {@code proposed} is 0 if no assignment is proposed. */
    public record Phase(long committed, long proposed) {}

    /** What a table keeps of a grant until its lease ends or is freed. */
    public record Row(long number, long task, long life, Kind kind, long generation, long tableEnds) {
        private static final int NUMBERS = 6;
    }

    /** A new table of a job: HS_WRONG_FORM if the name is not that of a job, or a number of the policy is refused. */
    public Table(String job, Policy policy) throws Refused {
        int code = Native.tableOpen(address(), job.getBytes(StandardCharsets.UTF_8), policy.numbersOf());
        opened(code, new long[5]);
    }

    private Table(String job, Policy policy, byte[] kept) throws Refused {
        long[] out = new long[5];
        byte[] name = job.getBytes(StandardCharsets.UTF_8);
        opened(Native.tableRestore(address(), name, policy.numbersOf(), kept, out), out);
    }

    private void opened(int code, long[] told) throws Refused {
        if (code != 0) {
            close();
        }
        Refused.check(code, told);
    }

    /** The table of a job that kept these values, as {@link #restart} leaves it. */
    public static Table restore(String job, Policy policy, byte[] kept) throws Refused {
        return new Table(job, policy, kept);
    }

    /** The message of the kept values of the table: all of it but its rows. */
    public byte[] kept() throws Refused {
        return read(out -> Native.tableKept(address(), out));
    }

    /**
     * The values to save in place of {@code saved}, the message that was saved last, ahead of the table by so many grants and
     * ticks; {@code saved} is empty if nothing was saved. Nothing is returned if {@code saved} covers the table: the next
     * grants and freed notes up to that number and that reading need no save. Codes of messages, those of restore.
     */
    public Optional<byte[]> save(byte[] saved, long grants, long ticks) throws Refused {
        byte[] message = read(out -> Native.tableSave(address(), saved, grants, ticks, out));
        return message.length == 0 ? Optional.empty() : Optional.of(message);
    }

    /** Gives the job lease to an assigner: HS_WRONG_FORM if it is 0, HS_READING_RANGE, HS_CLOCK_BACK, HS_JOB_HELD. */
    public Term take(long assigner, long at) throws Refused {
        return changed(out -> Native.tableTake(address(), assigner, at, out), Table::termOf);
    }

    /** Renews the term with this number: HS_READING_RANGE, HS_CLOCK_BACK, HS_NOT_HOLDER. */
    public Term renew(long number, long at) throws Refused {
        return changed(out -> Native.tableRenew(address(), number, at, out), Table::termOf);
    }

    private static Term termOf(long[] out) {
        return new Term(out[0], out[1], out[2]);
    }

    /** Proposes an assignment, given as its message, under the term with this number. */
    public void propose(long number, byte[] assignment, long at) throws Refused {
        changed(out -> Native.tablePropose(address(), number, assignment, at, out), out -> out);
    }

    /** Commits what is proposed, and returns its generation: also HS_NOTHING_PENDING, HS_GRACE, HS_HELD. */
    public long commit(long number, long at) throws Refused {
        return changed(out -> Native.tableCommit(address(), number, at, out), out -> out[1]);
    }

    /** Grants a task a lease for one of its lives, and returns the message of the grant. */
    public byte[] grant(long task, int life, long at) throws Refused {
        lock.writeLock().lock();
        try {
            return text(out -> Native.tableGrant(address(), task, life, at, out));
        } finally {
            lock.writeLock().unlock();
        }
    }

    /** Frees the rows that a note, given as its message, closes, and returns how many. */
    public long free(byte[] note, long at) throws Refused {
        return changed(out -> Native.tableFree(address(), note, at, out), out -> out[0]);
    }

    /** Restarts the table, which loses its rows and keeps all else, and returns how many rows it had. */
    public long restart() throws Refused {
        return changed(out -> Native.tableRestart(address(), out), out -> out[0]);
    }

    /** The phase of the table. */
    public Phase phase() throws Refused {
        long[] out = new long[5];
        lock.readLock().lock();
        try {
            Refused.check(Native.tablePhase(address(), out), out);
        } finally {
            lock.readLock().unlock();
        }
        return new Phase(out[0], out[1]);
    }

    /** The rows that have not ended at the last accepted reading, in grant order. */
    public List<Row> rows() throws Refused {
        long[] out = new long[6];
        lock.readLock().lock();
        long[] found;
        try {
            found = Native.tableRows(address(), out);
        } finally {
            lock.readLock().unlock();
        }
        Refused.check((int) out[5], new long[5]);
        List<Row> rows = new ArrayList<>();
        for (int at = 0; at < found.length; at += Row.NUMBERS) {
            rows.add(new Row(found[at], found[at + 1], found[at + 2], Kind.of(found[at + 3]), found[at + 4], found[at + 5]));
        }
        return List.copyOf(rows);
    }

    /** The message of the committed assignment: HS_NO_ASSIGNMENT. */
    public byte[] committed() throws Refused {
        return read(out -> Native.tableCommitted(address(), out));
    }

    /** A native that returns a code, and writes what it tells. */
    private interface Change {
        int make(long[] out);
    }

    /** A native that returns a message; the last number of {@code out} is its code. */
    private interface Text {
        byte[] write(long[] out);
    }

    private interface Result<T> {
        T of(long[] out);
    }

    private <T> T changed(Change call, Result<T> result) throws Refused {
        long[] out = new long[5];
        lock.writeLock().lock();
        try {
            Refused.check(call.make(out), out);
        } finally {
            lock.writeLock().unlock();
        }
        return result.of(out);
    }

    private byte[] read(Text call) throws Refused {
        lock.readLock().lock();
        try {
            return text(call);
        } finally {
            lock.readLock().unlock();
        }
    }

    private static byte[] text(Text call) throws Refused {
        long[] out = new long[6];
        byte[] message = call.write(out);
        Refused.check((int) out[5], new long[5]);
        return message;
    }
}
