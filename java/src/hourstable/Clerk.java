package hourstable;

import java.nio.charset.StandardCharsets;
import java.util.Arrays;

/** Knows the newest assignment that a client was given. Any threads may use one clerk at the same time. */
public final class Clerk extends Place {
    /** The owners of a key in an assignment, in rising order. */
    public record Owners(long generation, long[] tasks) {}

    /** A clerk of a job, which keeps no assignment. */
    public Clerk(String job) throws Refused {
        int code = Native.clerkOpen(address(), job.getBytes(StandardCharsets.UTF_8));
        if (code != 0) {
            close();
        }
        Refused.check(code, new long[5]);
    }

    /** Keeps an assignment, given as its message. Codes of messages, then HS_OLD_GENERATION. */
    public void learn(byte[] assignment) throws Refused {
        long[] out = new long[5];
        lock.writeLock().lock();
        try {
            Refused.check(Native.clerkLearn(address(), assignment, out), out);
        } finally {
            lock.writeLock().unlock();
        }
    }

    /** The owners of a key in the kept assignment: HS_UNKNOWN if none is kept. */
    public Owners look(byte[] key) throws Refused {
        long[] out = new long[7];
        lock.readLock().lock();
        try {
            Refused.check(Native.clerkLook(address(), key, out), new long[5]);
        } finally {
            lock.readLock().unlock();
        }
        return new Owners(out[0], Arrays.copyOfRange(out, 2, 2 + (int) out[1]));
    }

    /** Forgets the kept assignment. */
    public void forget() throws Refused {
        lock.writeLock().lock();
        try {
            Refused.check(Native.clerkForget(address()), new long[5]);
        } finally {
            lock.writeLock().unlock();
        }
    }
}
