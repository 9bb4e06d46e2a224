package hourstable;

import java.nio.charset.StandardCharsets;
import java.util.ArrayList;
import java.util.List;

/**
 * What the message of a grant says. Its lease ends at the reading {@code ends} of the task's clock, and at {@code tableEnds}
 * of the table's. The ranges rise, and do not touch.
 */
public record Grant(
    long number, long task, long life, Kind kind, long generation, long ends, long tableEnds, List<Range> ranges) {
    /** Slice keys from the first up to the end, which is not among them. */
    public record Range(long first, long end) {}

    private static final int NUMBERS = 7;

    static Grant read(String job, byte[] message) throws Refused {
        long[] out = new long[6];
        long[] read = Native.grantRead(job.getBytes(StandardCharsets.UTF_8), message, out);
        Refused.check((int) out[5], new long[5]);
        List<Range> ranges = new ArrayList<>();
        for (int at = NUMBERS; at + 1 < read.length; at += 2) {
            ranges.add(new Range(read[at], read[at + 1]));
        }
        return new Grant(read[0], read[1], read[2], Kind.of(read[3]), read[4], read[5], read[6], List.copyOf(ranges));
    }
}
