package hourstable;

import java.util.concurrent.locks.ReentrantReadWriteLock;

/** A place with its lock, which calls that only read take for reading. */
abstract class Place implements AutoCloseable {
    final ReentrantReadWriteLock lock = new ReentrantReadWriteLock();
    private long address = Native.placeNew();

    Place() {
        if (address == 0) {
            throw new OutOfMemoryError("hourstable");
        }
    }

    /** The place, while the lock is held. */
    final long address() {
        if (address == 0) {
            throw new IllegalStateException("it is closed");
        }
        return address;
    }

    /** Frees what it holds, after the calls that run. */
    @Override
    public void close() {
        lock.writeLock().lock();
        try {
            if (address != 0) {
                Native.placeFree(address);
            }
            address = 0;
        } finally {
            lock.writeLock().unlock();
        }
    }
}
