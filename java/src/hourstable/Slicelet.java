package hourstable;

import java.nio.charset.StandardCharsets;
import java.util.Arrays;
import java.util.Optional;
import java.util.function.LongSupplier;

/**
 * Knows the leases of a server task, and decides whether the task may serve a key: each decision is a call of the library.
 * Readings are those of the task's clock, and all numbers are unsigned. Any threads may use one slicelet at the same time.
 */
public final class Slicelet extends Place {
    /**
     * The lease under which a key is served: its generation, the number of its grant, and the first reading of the task's
     * clock at which it has ended. {@code covering} is the greatest generation of the held leases that cover the key, live or
     * ended, which may be above that of the lease.
     */
    public record Served(Kind kind, long generation, long number, long until, long covering) {
        static final int NUMBERS = 6;

        static Served of(long[] told) {
            return new Served(Kind.of(told[2]), told[1], told[0], told[4], told[5]);
        }
    }

    /** A key that the task held when it took the handle. */
    public record Handle(long task, long sliceKey, long position, int life) {
        static final int NUMBERS = 4;

        static Handle of(long[] numbers, int at) {
            return new Handle(numbers[at], numbers[at + 1], numbers[at + 2], (int) numbers[at + 3]);
        }
    }

    /** A handle, and the lease under which the task may serve its key. */
    public record Held(Handle handle, Served lease) {}

    /** What is done while the lease cannot be released. */
    @FunctionalInterface
    public interface Answer<T> {
        T give(Served lease) throws Exception;
    }

    /** A slicelet of a task of a job. The name of the job has at most 64 bytes of UTF-8, and the task is 1 to 64. */
    public Slicelet(String job, long task) throws Refused {
        this(job, task, 0);
    }

    private Slicelet(String job, long task, int life) throws Refused {
        int code = Native.sliceletOpen(address(), job.getBytes(StandardCharsets.UTF_8), task, life);
        if (code != 0) {
            close();
        }
        Refused.check(code, new long[5]);
    }

    /**
     * The slicelet of a task's new process. {@code life} is the greatest life that the task ever started: only lives above
     * it are started. Never call it beside a process of the task that may still run.
     */
    public static Slicelet resume(String job, long task, int life) throws Refused {
        return new Slicelet(job, task, life);
    }

    /**
     * Reads a grant of a job from its message. Its task holds the ranges once it has heard the grant, until it hears another
     * one of its kind or releases the lease. HS_WRONG_FORM if the name is not that of a job, codes of messages.
     */
    public static Grant readGrant(String job, byte[] grant) throws Refused {
        return Grant.read(job, grant);
    }

    /** Starts a life of the task, which holds no lease yet: HS_OLD_LIFE, HS_CLOCK_BACK, HS_HISTORY_FULL. */
    public void start(int life, long at) throws Refused {
        lock.writeLock().lock();
        try {
            Refused.check(Native.sliceletStart(address(), life, at), new long[5]);
        } finally {
            lock.writeLock().unlock();
        }
    }

    /** Hears a grant, given as its message: its lease replaces the held one of its kind. */
    public void hear(byte[] grant, long at) throws Refused {
        long[] out = new long[5];
        lock.writeLock().lock();
        try {
            Refused.check(Native.sliceletHear(address(), grant, at, out), out);
        } finally {
            lock.writeLock().unlock();
        }
    }

    /** Gives up the lease of a kind, after the answers that are being given, and returns its note for the table. */
    public byte[] release(Kind kind, long at) throws Refused {
        byte[] note = new byte[512];
        long[] out = new long[5];
        lock.writeLock().lock();
        try {
            Refused.check(Native.sliceletRelease(address(), kind.number, at, note, out), new long[5]);
        } finally {
            lock.writeLock().unlock();
        }
        return Arrays.copyOf(note, (int) out[0]);
    }

    /**
     * The lease under which the task may serve a key now: HS_DOWN, HS_CLOCK_BACK, HS_ENDED, HS_NOT_OWNED, HS_NO_LEASE. Once
     * it has returned, another thread may release the lease: answer within {@link #serving} if one may.
     */
    public Served serve(byte[] key, long at) throws Refused {
        long[] out = new long[Served.NUMBERS];
        lock.readLock().lock();
        try {
            Refused.check(Native.sliceletServe(address(), key, at, out), out);
        } finally {
            lock.readLock().unlock();
        }
        return Served.of(out);
    }

    /**
     * Gives an answer if the task may serve a key. The lease is not released until the answer returns: start, hear, release
     * and close wait for it, so the answer must call none of them.
     */
    public <T> T serving(byte[] key, long at, Answer<T> answer) throws Exception {
        lock.readLock().lock();
        try {
            return answer.give(serve(key, at));
        } finally {
            lock.readLock().unlock();
        }
    }

    /** Takes a handle on a key if the task may serve it, and otherwise throws as serve does. */
    public Handle hold(byte[] key, long at) throws Refused {
        return holdServed(key, at).handle();
    }

    /** Takes a handle on a key as hold does, and returns the lease too, as serve does. */
    public Held holdServed(byte[] key, long at) throws Refused {
        long[] out = new long[Served.NUMBERS + Handle.NUMBERS];
        lock.readLock().lock();
        try {
            Refused.check(Native.sliceletHold(address(), key, at, out), out);
        } finally {
            lock.readLock().unlock();
        }
        return new Held(Handle.of(out, Served.NUMBERS), Served.of(out));
    }

    /** Returns if the task has held the key of a handle without a break, and may serve it now: HS_STRANGER, HS_BROKEN. */
    public void check(Handle handle, long at) throws Refused {
        lock.readLock().lock();
        try {
            int code = Native.sliceletCheck(
                address(), handle.task(), handle.sliceKey(), handle.position(), handle.life(), at);
            Refused.check(code, new long[5]);
        } finally {
            lock.readLock().unlock();
        }
    }

    /**
     * The fencing token that the task has for a key. {@code most} is the most owners of a slice by the policy of the job,
     * and {@code epoch} a number above those of the jobs before it that wrote to the same store. HS_MANY_OWNERS if
     * {@code most} is above 1, then the codes of serve.
     */
    public Token token(long most, int epoch, byte[] key, long at) throws Refused {
        byte[] out = new byte[Token.LENGTH];
        lock.readLock().lock();
        try {
            Refused.check(Native.sliceletToken(address(), most, epoch, key, at, out), new long[5]);
        } finally {
            lock.readLock().unlock();
        }
        return Token.of(out);
    }

    /**
     * Enters a block of work on a key: reads the local clock and then {@code clock}, while no other call of it runs, takes a
     * handle at that reading as hold does, and writes the line of that call. {@code ticket} is its place among all calls of
     * the job, and is drawn before. The codes of {@link TaskClock#read}, with which no call is made, then those of hold, which
     * have a line. After any other one the clock is as before.
     */
    public Served enter(TaskClock clock, LongSupplier local, long ticket, byte[] key, Block block) throws Refused {
        lock.readLock().lock();
        try {
            int code = block.call(clock, local, ticket,
                now -> Native.sliceletEnter(address(), clock.numbers, now, key, block.numbers, block.room));
            Refused.check(code, block.told());
        } finally {
            lock.readLock().unlock();
        }
        return Served.of(block.told());
    }

    /**
     * Leaves a block of work: reads the clocks as enter does, checks the handle that enter took as check does, and writes the
     * line of that call. The codes of {@link TaskClock#read}, with which no call is made, then those of check.
     */
    public void leave(TaskClock clock, LongSupplier local, long ticket, Block block) throws Refused {
        lock.readLock().lock();
        try {
            int code = block.call(clock, local, ticket,
                now -> Native.sliceletLeave(address(), clock.numbers, now, block.numbers, block.room));
            Refused.check(code, new long[5]);
        } finally {
            lock.readLock().unlock();
        }
    }

    /**
     * Receives a grant, given as its message: reads the local clock and then {@code clock}, hears the grant at that reading as
     * hear does, unless it shows that clocks are not timely, and writes the line of that call, in one call of the library,
     * which decodes the message once. {@code policy} is that of the table, and {@code ticket} is as for enter. Returns the
     * lease, with a covering of 0, or nothing if the grant shows that clocks are not timely: then nothing is heard, and there
     * is no line. The codes of {@link TaskClock#read}, with which no call is made, HS_WRONG_FORM if a number of the policy is
     * outside its limits, then those of hear, of which those of the slicelet have a line.
     */
    public Optional<Served> receive(TaskClock clock, LongSupplier local, long ticket, Table.Policy policy, byte[] grant,
        Receipt receipt) throws Refused {
        long[] given = policy.numbersOf();
        lock.writeLock().lock();
        try {
            int code = receipt.call(clock, local, ticket, grant.length, now -> Native.sliceletReceive(
                address(), clock.numbers, now, given, grant, receipt.numbers, receipt.room));
            Refused.check(code, receipt.told());
        } finally {
            lock.writeLock().unlock();
        }
        return receipt.isEvidence() ? Optional.empty() : Optional.of(Served.of(receipt.told()));
    }

    /** The slice key of a key. */
    public static long sliceKey(byte[] key) {
        long hashed = Native.sliceKey(key);
        if (hashed < 0) {
            throw new OutOfMemoryError("hourstable");
        }
        return hashed;
    }
}
