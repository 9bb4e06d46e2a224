package hourstable;

/** The natives of {@code native/hourstable_jni.c}. */
final class Native {
    static {
        System.loadLibrary("hourstable_jni");
    }

    private Native() {}

    static native long placeNew();

    static native void placeFree(long place);

    static native String codeName(int code);

    static native long sliceKey(byte[] key);

    static native int sliceletOpen(long place, byte[] job, long task, int life);

    static native int sliceletStart(long place, int life, long at);

    static native int sliceletHear(long place, byte[] grant, long at, long[] out);

    static native int sliceletRelease(long place, int kind, long at, byte[] note, long[] out);

    static native int sliceletServe(long place, byte[] key, long at, long[] out);

    static native int sliceletHold(long place, byte[] key, long at, long[] out);

    static native int sliceletCheck(long place, long task, long sliceKey, long position, int life, long at);

    static native int sliceletToken(long place, long most, int epoch, byte[] key, long at, byte[] out);

    static native int fenceAccept(byte[] greatest, byte[] token);

    static native int sliceletEnter(long place, long[] clock, long now, byte[] key, long[] block, byte[] line);

    static native int sliceletLeave(long place, long[] clock, long now, long[] block, byte[] line);

    static native int sliceletReceive(
        long place, long[] clock, long now, long[] policy, byte[] grant, long[] receipt, byte[] line);

    static native long boottimeTicks();

    static native int taskClockNew(long[] clock, long extra, long per, long grain, long oldest);

    static native int taskClockSample(long[] clock, long sent, long reading, long now);

    static native int taskClockRead(long[] clock, long now, long[] out);

    static native long[] grantRead(byte[] job, byte[] grant, long[] out);

    static native int tableOpen(long place, byte[] job, long[] policy);

    static native int tableRestore(long place, byte[] job, long[] policy, byte[] kept, long[] out);

    static native byte[] tableKept(long place, long[] out);

    static native byte[] tableSave(long place, byte[] saved, long grants, long ticks, long[] out);

    static native int tableTake(long place, long assigner, long at, long[] out);

    static native int tableRenew(long place, long number, long at, long[] out);

    static native int tablePropose(long place, long number, byte[] assignment, long at, long[] out);

    static native int tableCommit(long place, long number, long at, long[] out);

    static native byte[] tableGrant(long place, long task, int life, long at, long[] out);

    static native int tableFree(long place, byte[] note, long at, long[] out);

    static native int tableRestart(long place, long[] out);

    static native int tablePhase(long place, long[] out);

    static native long[] tableRows(long place, long[] out);

    static native byte[] tableCommitted(long place, long[] out);

    static native int clerkOpen(long place, byte[] job);

    static native int clerkLearn(long place, byte[] assignment, long[] out);

    static native int clerkLook(long place, byte[] key, long[] out);

    static native int clerkForget(long place);
}
