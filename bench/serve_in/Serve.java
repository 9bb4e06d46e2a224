import static java.nio.charset.StandardCharsets.UTF_8;

import hourstable.Block;
import hourstable.Slicelet;
import hourstable.TaskClock;
import java.lang.management.ManagementFactory;

/** Prints what calls for a held key cost, as serve.c does. The first rounds are compiled. */
final class Serve {
    private static final String GRANT =
        "{\"job\":\"shop\",\"type\":\"grant\",\"value\":{\"ends\":\"1000\",\"generation\":\"1\",\"kind\":\"guard\",\"life\":1,"
            + "\"number\":\"1\",\"ranges\":[[\"0\",\"9223372036854775808\"]],\"task\":1,\"until\":\"1010\"},\"version\":2}";

    private interface Play {
        void play(byte[] key, int call) throws Exception;
    }

    /** How long this thread had the processor, in nanoseconds. */
    private static long now() {
        return ManagementFactory.getThreadMXBean().getCurrentThreadCpuTime();
    }

    private static void tell(int calls, Play play) throws Exception {
        byte[] key = "a key of 20 bytes, 0".getBytes(UTF_8);
        long least = Long.MAX_VALUE;
        for (int round = 0; round < 100; round++) {
            long begun = now();
            for (int call = 0; call < calls; call++) {
                key[19] = (byte) call;
                play.play(key, call);
            }
            least = Math.min(least, now() - begun);
        }
        System.out.println(least / calls);
    }

    public static void main(String[] words) throws Exception {
        int calls = Integer.parseInt(words[0]);
        try (Slicelet task = new Slicelet("shop", 1)) {
            task.start(1, 0);
            task.hear(GRANT.getBytes(UTF_8), 1);
            TaskClock clock = new TaskClock(new TaskClock.Drift(0, 1, 0), 100);
            clock.sample(0, 1, 0);
            tell(calls, (key, call) -> task.serve(key, 2));
            for (boolean hasLines : new boolean[] {false, true}) {
                Block block = new Block(hasLines);
                tell(calls, (key, call) -> {
                    task.enter(clock, () -> 2, 2 * call, key, block);
                    task.leave(clock, () -> 2, 2 * call + 1, block);
                });
            }
        }
    }
}
