package hourstable;

import static java.nio.charset.StandardCharsets.UTF_8;

import java.util.ArrayList;
import java.util.Arrays;
import java.util.List;
import java.util.concurrent.CountDownLatch;
import java.util.concurrent.atomic.AtomicBoolean;
import java.util.concurrent.atomic.AtomicReference;

/** The calls of the library, with expected values that were worked out by hand. The status is 0 if none failed. */
public final class LibraryTest {
    private static final byte[] HELLO = "hello".getBytes(UTF_8);
    private static final String ASSIGNMENT =
        "{\"job\":\"shop\",\"type\":\"assignment\",\"value\":{\"generation\":\"4\",\"slices\":"
            + "[[\"0\",[64,3]],[\"4611686018427387904\",[7]]]},\"version\":2}";
    private static int failed;
    private static int passed;

    private interface Call {
        void make() throws Exception;
    }

    private static void is(String what, Object got, Object wanted) {
        if (got.equals(wanted)) {
            passed++;
        } else {
            failed++;
            System.out.println(what + ": " + got + ", not " + wanted);
        }
    }

    private static void refuses(String what, String name, String message, Call call) throws Exception {
        try {
            call.make();
            is(what, "done", name);
        } catch (Refused refused) {
            is(what, refused.name() + " " + refused.getMessage(), name + " " + message);
        }
    }

    /** A guard of all keys for task 2 in life 1. */
    private static byte[] grant(int number, int ends) {
        String value = String.format(
            "{\"ends\":\"%d\",\"generation\":\"3\",\"kind\":\"guard\",\"life\":1,\"number\":\"%d\",\"ranges\":"
                + "[[\"0\",\"9223372036854775808\"]],\"task\":2,\"until\":\"%d\"}",
            ends, number, ends + 10);
        return ("{\"job\":\"shop\",\"type\":\"grant\",\"value\":" + value + ",\"version\":2}").getBytes(UTF_8);
    }

    /** The steps of examples/c/slicelet.c, and refusals. */
    private static void serves() throws Exception {
        try (Slicelet task = new Slicelet("shop", 2)) {
            refuses("serve before a start", "HS_DOWN", "down", () -> task.serve(HELLO, 1));
            task.start(1, 3);
            refuses("the same life", "HS_OLD_LIFE", "old-life", () -> task.start(1, 4));
            refuses("bytes", "HS_NOT_JSON", "not-json", () -> task.hear(new byte[0], 4));
            refuses("a version", "HS_VERSION", "version 3", () -> task.hear("{\"version\":3}".getBytes(UTF_8), 4));
            task.hear(grant(7, 8), 5);
            refuses("hear again", "HS_OLD", "old 7", () -> task.hear(grant(7, 9), 5));
            is("serve", task.serve(HELLO, 7), new Slicelet.Served(Kind.GUARD, 3, 7, 8, 3));
            is("serve a key of 300 bytes", task.serve(new byte[300], 7), new Slicelet.Served(Kind.GUARD, 3, 7, 8, 3));
            refuses("serve at the end", "HS_ENDED", "ended", () -> task.serve(HELLO, 8));
            refuses("no bridge", "HS_NOTHING_HELD", "nothing-held", () -> task.release(Kind.BRIDGE, 8));
            is("the note", new String(task.release(Kind.GUARD, 8), UTF_8),
                "{\"job\":\"shop\",\"type\":\"note\",\"value\":{\"kind\":\"guard\",\"life\":1,\"number\":\"7\",\"task\":2},"
                    + "\"version\":2}");
        }
        refuses("a task above 64", "HS_WRONG_FORM", "wrong-form", () -> new Slicelet("shop", 65));
    }

    private static void handles() throws Exception {
        try (Slicelet task = new Slicelet("shop", 2); Slicelet other = new Slicelet("shop", 1)) {
            task.start(1, 3);
            task.hear(grant(7, 8), 5);
            Slicelet.Handle handle = task.hold(HELLO, 5);
            is("the slice key", handle.sliceKey(), 0x167926dd2fd85187L);
            is("the slice key of hello", Slicelet.sliceKey(HELLO), 0x167926dd2fd85187L);
            task.hear(grant(8, 20), 6);
            task.check(handle, 19);
            refuses("check at the end", "HS_BROKEN", "broken", () -> task.check(handle, 20));
            refuses("another's handle", "HS_STRANGER", "stranger", () -> other.check(handle, 6));
            String half = new String(grant(9, 30), UTF_8).replace("[[\"0\"", "[[\"4611686018427387904\"");
            task.hear(half.getBytes(UTF_8), 7);
            refuses("the other half", "HS_NOT_OWNED", "not-owned 3", () -> task.hold(HELLO, 7));
        }
    }

    /** A bridge of generation 4 covers the lower half beside a guard of generation 3. */
    private static void covers() throws Exception {
        try (Slicelet task = new Slicelet("shop", 2)) {
            task.start(1, 5);
            task.hear(grant(7, 130), 6);
            String bridge = new String(grant(8, 200), UTF_8).replace("guard", "bridge")
                .replace("\"generation\":\"3\"", "\"generation\":\"4\"").replace("9223372036854775808", LOWER);
            task.hear(bridge.getBytes(UTF_8), 7);
            Slicelet.Served lease = new Slicelet.Served(Kind.GUARD, 3, 7, 130, 4);
            is("serve a key that a newer lease covers too", task.serve(HELLO, 8), lease);
            is("hold it", task.holdServed(HELLO, 8), new Slicelet.Held(task.hold(HELLO, 8), lease));
            try {
                task.hold(HELLO, 200);
                is("hold a key that has ended", "done", "HS_ENDED");
            } catch (Refused refused) {
                is("what covers a key that has ended", refused.name() + " " + refused.covering(), "HS_ENDED 4");
            }
        }
    }

    private static void tokens() throws Exception {
        try (Slicelet task = new Slicelet("shop", 2)) {
            task.start(1, 3);
            task.hear(grant(7, 8), 5);
            Token token = task.token(1, 9, HELLO, 6);
            is("a token", token, Token.of(9, 3, 1));
            is("its text", token.toString(), "00000009000000000000000300000001");
            is("the token of a text", Token.parse(token.toString()), token);
            is("a greater epoch", Integer.signum(Token.of(-1, 1, 1).compareTo(token)), 1);
            refuses("a job of two owners", "HS_MANY_OWNERS", "many-owners", () -> task.token(2, 9, HELLO, 6));
            refuses("a token at the end", "HS_ENDED", "ended", () -> task.token(1, 9, HELLO, 8));
            Fence fence = new Fence();
            is("the first write", fence.accept(token), true);
            is("the same token", fence.accept(token), true);
            is("a lower token", fence.accept(Token.of(9, 2, 255)), false);
            is("the greatest token", fence.greatest(), token);
            is("bytes above 127", fence.accept(Token.of(9, 200, 1)), true);
        }
    }

    private static final String LOWER = "4611686018427387904";
    private static final String HELLO_KEY = "\"slice_key\":1619368272448737671,\"task\":2";

    /** A step of a block: its local reading, its key, and how its line ends before its ticket, empty if there is none. */
    private record Step(String what, long now, String key, String end) {}

    /** Those of a task that may serve the lower half until 130, by a clock that a sample puts 6 ahead of the local one. */
    private static final List<Step> STEPS = List.of(
        new Step("enter", 0, "hello", ""), // the clock has no sample
        new Step("sample", 0, "", ""),
        new Step("enter", 0, "hello", "\"reply\":\"handle life 1 position 2\"," + HELLO_KEY),
        new Step("leave", 9, "", checked("continuous")),
        new Step("leave", 8, "", ""), // the local clock went back
        new Step("enter", 10, "abc", "\"reply\":\"denied not-owned 3\",\"slice_key\":6718257250126850037,\"task\":2"),
        new Step("enter", 11, "hello", "\"reply\":\"handle life 1 position 2\"," + HELLO_KEY),
        new Step("leave", 123, "", checked("continuous")),
        new Step("leave", 124, "", checked("broken")),
        new Step("enter", 125, "hello", "\"reply\":\"denied ended\"," + HELLO_KEY),
        new Step("enter", 600, "hello", "")); // the sample is too old

    private static String checked(String reply) {
        return "\"handle\":{\"life\":1,\"position\":2," + HELLO_KEY + "},\"reply\":\"" + reply + "\",\"task\":2";
    }

    /** What a call returns or why it is refused, as text. */
    private interface Play {
        Object play() throws Refused;
    }

    private static String told(Play call) {
        try {
            return String.valueOf(call.play());
        } catch (Refused refused) {
            return refused.name() + " " + refused.getMessage() + " " + refused.covering();
        }
    }

    /** What the steps of a block are made of: a clock, and the handle that was taken last. */
    private static final class Parts {
        private final Slicelet task;
        private final TaskClock clock;
        private Slicelet.Handle handle = new Slicelet.Handle(0, 0, 0, 0);
        private long at = -1; // -1 if the clock refused

        Parts(Slicelet task, TaskClock clock) {
            this.task = task;
            this.clock = clock;
        }

        Object play(Step step) throws Refused {
            at = -1;
            at = clock.read(step.now());
            if (step.what().equals("leave")) {
                task.check(handle, at);
                return "left";
            }
            Slicelet.Held held = task.holdServed(step.key().getBytes(UTF_8), at);
            handle = held.handle();
            return held.lease();
        }
    }

    private static Object play(Slicelet task, TaskClock clock, Step step, long ticket, Block block) throws Refused {
        if (step.what().equals("enter")) {
            return task.enter(clock, step::now, ticket, step.key().getBytes(UTF_8), block);
        }
        task.leave(clock, step::now, ticket, block);
        return "left";
    }

    /** Compares the steps of a block with their parts, by clocks of the same numbers. */
    private static void compare(Slicelet task, Block block, boolean hasLines, long first) throws Exception {
        TaskClock clock = new TaskClock(new TaskClock.Drift(0, 1, 0), 500);
        Parts parts = new Parts(task, new TaskClock(new TaskClock.Drift(0, 1, 0), 500));
        for (int at = 0; at < STEPS.size(); at++) {
            Step step = STEPS.get(at);
            long ticket = first + at;
            if (step.what().equals("sample")) {
                clock.sample(step.now(), step.now() + 6, step.now());
                parts.clock.sample(step.now(), step.now() + 6, step.now());
                continue;
            }
            is(step + " is told", told(() -> play(task, clock, step, ticket, block)), told(() -> parts.play(step)));
            is(step + " is called", block.isCalled(), parts.at >= 0);
            is(step + " has a line", parts.at >= 0, !step.end().isEmpty());
            is(step + " leaves the clock", Arrays.toString(clock.numbers), Arrays.toString(parts.clock.numbers));
            String line = String.format("{\"at\":%d,\"do\":\"%s\",%s,\"ticket\":%s}\n", parts.at,
                step.what().equals("enter") ? "hold" : "check", step.end(), Long.toUnsignedString(ticket));
            is(step + " has the line", new String(block.line(), UTF_8), hasLines && parts.at >= 0 ? line : "");
            if (parts.at >= 0) {
                is(step + " has the reading", block.at(), parts.at);
                is(step + " has the handle", block.handle(), parts.handle);
            }
        }
    }

    private static void blocks() throws Exception {
        try (Slicelet task = new Slicelet("shop", 2); Slicelet other = new Slicelet("shop", 1)) {
            task.start(1, 5);
            task.hear(new String(grant(7, 130), UTF_8).replace("9223372036854775808", LOWER).getBytes(UTF_8), 6);
            compare(task, new Block(true), true, 20);
            compare(task, new Block(true), true, -20);
            compare(task, new Block(false), false, 20);
            Block small = new Block(true);
            small.room = new byte[1];
            compare(task, small, true, 20);
            TaskClock clock = new TaskClock(new TaskClock.Drift(0, 1, 0), 500);
            clock.sample(0, 6, 0);
            is("a reading", clock.readNow(() -> 0), 6L);
            refuses("a sample that was sent ahead", "HS_SENT_AHEAD", "sent-ahead", () -> clock.sample(2, 6, 1));
            refuses("a drift in 0 ticks", "HS_WRONG_FORM", "wrong-form",
                () -> new TaskClock(new TaskClock.Drift(1, 0, 0), 9));
            Block block = new Block(true);
            task.enter(clock, () -> 1, 1, HELLO, block);
            refuses("a stranger", "HS_STRANGER", "stranger", () -> other.leave(clock, () -> 2, 3, block));
            is("the line of a stranger", new String(block.line(), UTF_8).endsWith("\"task\":1,\"ticket\":3}\n"), true);
            try {
                task.leave(clock, () -> Long.parseLong("no clock"), 4, block);
                is("a local clock that fails", "done", "thrown");
            } catch (NumberFormatException why) {
                is("a local clock that fails", block.isCalled() + " " + block.line().length, "false 0");
            }
            long ticks = TaskClock.boottimeTicks();
            is("the boot time goes on", ticks > 0 && ticks <= TaskClock.boottimeTicks(), true);
        }
    }

    /** The grant was made at 40 of the table. The clock is 6 ahead of the local one, and the skew is 10. */
    private static void receives() throws Exception {
        Table.Policy policy = new Table.Policy(1, 1, 10, 100, 100, 1000, 1000);
        String said = "\"grant\":{\"ends\":130,\"generation\":3,\"kind\":\"guard\",\"life\":1,\"number\":7,"
            + "\"ranges\":[[0,9223372036854775808]],\"task\":2,\"until\":140}";
        for (boolean hasLines : List.of(true, false)) {
            TaskClock clock = new TaskClock(new TaskClock.Drift(0, 1, 0), 500);
            Receipt receipt = new Receipt(hasLines);
            try (Slicelet task = new Slicelet("shop", 2)) {
                task.start(1, 5);
                refuses("a grant before a sample", "HS_NO_SAMPLE", "no-sample",
                    () -> task.receive(clock, () -> 1, 20, policy, grant(7, 130), receipt));
                is("a grant before a sample is called", receipt.isCalled(), false);
                clock.sample(0, 6, 0);
                is("evidence", task.receive(clock, () -> 23, 20, policy, grant(7, 130), receipt).isEmpty(), true);
                is("evidence is called", receipt.isCalled() && receipt.isEvidence(), true);
                is("the line of evidence", receipt.line().length, 0);
                refuses("a key after evidence", "HS_NO_LEASE", "no-lease", () -> task.serve(HELLO, 29));
                Slicelet.Served lease = task.receive(clock, () -> 24, 20, policy, grant(7, 130), receipt).get();
                is("the lease", lease, new Slicelet.Served(Kind.GUARD, 3, 7, 130, 0));
                is("the reading", receipt.at(), 30L);
                is("the line", new String(receipt.line(), UTF_8), hasLines ? "{\"at\":30,\"do\":\"hear\"," + said
                    + ",\"reply\":\"heard 7\",\"task\":2,\"ticket\":20}\n" : "");
                refuses("a grant again", "HS_OLD", "old 7",
                    () -> task.receive(clock, () -> 25, 21, policy, grant(7, 130), receipt));
                is("a grant again is called", receipt.isCalled() && !receipt.isEvidence(), true);
                is("its line", new String(receipt.line(), UTF_8), hasLines ? "{\"at\":31,\"do\":\"hear\"," + said
                    + ",\"reply\":\"refused old 7\",\"task\":2,\"ticket\":21}\n" : "");
                refuses("no message", "HS_NOT_JSON", "not-json",
                    () -> task.receive(clock, () -> 26, 22, policy, "{".getBytes(UTF_8), receipt));
                is("no message is called", receipt.isCalled(), false);
                refuses("a grant before 25", "HS_CLOCK_BACK", "clock-back",
                    () -> task.receive(clock, () -> 24, 23, policy, grant(8, 130), receipt));
                is("what is held", task.serve(HELLO, 31).number(), 7L);
            }
        }
    }

    private static void resumes() throws Exception {
        try (Slicelet task = Slicelet.resume("shop", 2, 4)) {
            refuses("an earlier life", "HS_OLD_LIFE", "old-life", () -> task.start(4, 1));
            task.start(5, 1);
        }
        Slicelet closed = new Slicelet("shop", 2);
        closed.close();
        closed.close();
        try {
            closed.start(1, 1);
            is("start of a closed one", "done", "refused");
        } catch (IllegalStateException refused) {
            is("start of a closed one", refused.getMessage(), "it is closed");
        }
    }

    private static void looks() throws Exception {
        try (Clerk clerk = new Clerk("shop")) {
            refuses("look before it learned", "HS_UNKNOWN", "unknown", () -> clerk.look(HELLO));
            clerk.learn(ASSIGNMENT.getBytes(UTF_8));
            Clerk.Owners owners = clerk.look(HELLO);
            is("the owners", owners.generation() + " " + Arrays.toString(owners.tasks()), "4 [3, 64]");
            refuses("again", "HS_OLD_GENERATION", "old 4", () -> clerk.learn(ASSIGNMENT.getBytes(UTF_8)));
            clerk.forget();
            refuses("look after it forgot", "HS_UNKNOWN", "unknown", () -> clerk.look(HELLO));
        }
    }

    /** Threads serve a key while its lease is renewed, and a release waits for an answer. */
    private static void threads() throws Exception {
        try (Slicelet task = new Slicelet("shop", 2)) {
            task.start(1, 0);
            task.hear(grant(1, 1000), 1);
            AtomicReference<Exception> fault = new AtomicReference<>();
            Thread[] readers = new Thread[4];
            for (int reader = 0; reader < readers.length; reader++) {
                readers[reader] = start(fault, () -> {
                    for (int ask = 0; ask < 2000; ask++) {
                        task.serve(HELLO, 500);
                    }
                });
            }
            for (int number = 2; number < 102; number++) {
                task.hear(grant(number, 1000), 1);
            }
            for (Thread reader : readers) {
                reader.join();
            }
            is("readers beside a writer", String.valueOf(fault.get()), "null");
            CountDownLatch asked = new CountDownLatch(1);
            AtomicBoolean isReleased = new AtomicBoolean();
            Thread writer = start(fault, () -> {
                asked.await();
                task.release(Kind.GUARD, 500);
                isReleased.set(true);
            });
            boolean wasReleased = task.serving(HELLO, 500, lease -> {
                asked.countDown();
                Thread.sleep(50);
                return isReleased.get();
            });
            writer.join();
            is("a release during an answer", wasReleased, false);
            is("a release after it", isReleased.get(), true);
            refuses("serve after it", "HS_NO_LEASE", "no-lease", () -> task.serving(HELLO, 500, lease -> null));
        }
    }

    /** Calls that change something wait for a reader, and calls that only read do not. */
    private static void locks() throws Exception {
        try (Table table = steadyTable()) {
            is("grant waits", waits(table, () -> table.grant(1, 1, 5)), true);
            is("take waits", waits(table, () -> table.take(1, 5)), true);
            is("save waits", waits(table, () -> table.save(new byte[0], 0, 0)), false);
            is("rows waits", waits(table, table::rows), false);
            is("phase waits", waits(table, table::phase), false);
        }
        try (Slicelet task = new Slicelet("shop", 2); Clerk clerk = new Clerk("shop")) {
            is("start waits", waits(task, () -> task.start(1, 0)), true);
            is("hear waits", waits(task, () -> task.hear(grant(1, 1000), 1)), true);
            is("serve waits", waits(task, () -> task.serve(HELLO, 1)), false);
            is("serving waits", waits(task, () -> task.serving(HELLO, 1, lease -> null)), false);
            is("hold waits", waits(task, () -> task.hold(HELLO, 1)), false);
            TaskClock clock = new TaskClock(new TaskClock.Drift(0, 1, 0), 9);
            Block block = new Block(false);
            is("enter waits", waits(task, () -> task.enter(clock, () -> 1, 1, HELLO, block)), false);
            is("leave waits", waits(task, () -> task.leave(clock, () -> 1, 1, block)), false);
            is("check waits", waits(task, () -> task.check(new Slicelet.Handle(2, 0, 0, 1), 1)), false);
            is("release waits", waits(task, () -> task.release(Kind.GUARD, 1)), true);
            is("close waits", waits(task, task::close), true);
            is("learn waits", waits(clerk, () -> clerk.learn(ASSIGNMENT.getBytes(UTF_8))), true);
            is("look waits", waits(clerk, () -> clerk.look(HELLO)), false);
            is("forget waits", waits(clerk, clerk::forget), true);
        }
    }

    /** Whether a call waits while the lock is held for reading; what it returns does not matter. */
    private static boolean waits(Place place, Call call) throws Exception {
        place.lock.readLock().lock();
        boolean waits;
        Thread thread = start(new AtomicReference<>(), call);
        try {
            for (int look = 0; look < 200 && thread.isAlive() && place.lock.getQueueLength() == 0; look++) {
                thread.join(10);
            }
            waits = thread.isAlive();
        } finally {
            place.lock.readLock().unlock();
        }
        thread.join();
        return waits;
    }

    private static Thread start(AtomicReference<Exception> fault, Call call) {
        Thread thread = new Thread(() -> {
            try {
                call.make();
            } catch (Exception why) {
                fault.set(why);
            }
        });
        thread.start();
        return thread;
    }

    private static final Table.Policy POLICY = new Table.Policy(1, 1, 10, 100, 100, 1000, 1000);

    private static byte[] assignment(int generation, String slices) {
        return ("{\"job\":\"shop\",\"type\":\"assignment\",\"value\":{\"generation\":\"" + generation
            + "\",\"slices\":" + slices + "},\"version\":2}").getBytes(UTF_8);
    }

    /** A table whose generation 1 gives all keys to task 1, at reading 2. */
    private static Table steadyTable() throws Refused {
        Table table = new Table("shop", POLICY);
        is("take", table.take(1, 0), new Table.Term(1, 1, 1000));
        table.propose(1, assignment(1, "[[\"0\",[1]]]"), 1);
        is("commit", table.commit(1, 2), 1L);
        return table;
    }

    private static void tables() throws Exception {
        refuses("a guard of 0", "HS_WRONG_FORM", "wrong-form",
            () -> new Table("shop", new Table.Policy(1, 1, 0, 0, 100, 1000, 1000)));
        try (Table table = steadyTable()) {
            refuses("take again", "HS_JOB_HELD", "job-held 1000", () -> table.take(2, 3));
            refuses("another term", "HS_NOT_HOLDER", "not-holder 1", () -> table.renew(2, 3));
            is("renew", table.renew(1, 3), new Table.Term(1, 1, 1003));
            refuses("nothing proposed", "HS_NOTHING_PENDING", "nothing-pending", () -> table.commit(1, 3));
            is("the grant", new String(table.grant(1, 1, 5), UTF_8),
                "{\"job\":\"shop\",\"type\":\"grant\",\"value\":{\"ends\":\"95\",\"generation\":\"1\","
                    + "\"kind\":\"guard\",\"life\":1,\"number\":\"1\",\"ranges\":"
                    + "[[\"0\",\"9223372036854775808\"]],\"task\":1,\"until\":\"105\"},\"version\":2}");
            is("rows", table.rows(), List.of(new Table.Row(1, 1, 1, Kind.GUARD, 1, 105)));
            refuses("a stale base", "HS_STALE_BASE", "stale-base 1",
                () -> table.propose(1, assignment(3, "[[\"0\",[1]]]"), 6));
            table.propose(1, assignment(2, "[[\"0\",[2]]]"), 6);
            is("phase", table.phase(), new Table.Phase(1, 2));
            refuses("held", "HS_HELD", "held 1 guard 1", () -> table.commit(1, 7));
            refuses("a lower reading", "HS_CLOCK_BACK", "clock-back", () -> table.grant(1, 1, 4));
            is("the assignment", new String(table.committed(), UTF_8),
                new String(assignment(1, "[[\"0\",[1]]]"), UTF_8));
            byte[] kept = table.kept();
            try (Table restored = Table.restore("shop", POLICY, kept)) {
                refuses("grace", "HS_GRACE", "grace 105", () -> restored.commit(1, 8));
                is("commit after the grace", restored.commit(1, 105), 2L);
            }
            refuses("another policy", "HS_OTHER_POLICY", "other-policy",
                () -> Table.restore("shop", new Table.Policy(1, 1, 10, 100, 100, 1000, 999), kept));
            String note = "{\"job\":\"shop\",\"type\":\"note\",\"value\":{\"kind\":\"guard\",\"life\":1,"
                + "\"number\":\"1\",\"task\":1},\"version\":2}";
            is("free", table.free(note.getBytes(UTF_8), 8), 1L);
            refuses("free again", "HS_NO_ROW", "no-row", () -> table.free(note.getBytes(UTF_8), 8));
            is("commit", table.commit(1, 9), 2L);
            table.grant(2, 1, 10);
            is("restart", table.restart(), 1L);
        }
    }

    /**
     * The table has made one grant, at 5, whose row ends at 105. Saved 10 grants and 50 ticks ahead, it has made 11, at 55,
     * whose rows end by 155.
     */
    private static void saves() throws Exception {
        try (Table table = steadyTable()) {
            table.grant(1, 1, 5);
            String ahead = new String(table.kept(), UTF_8).replace("\"deadline\":\"105\"", "\"deadline\":\"155\"")
                .replace("\"granted\":\"1\"", "\"granted\":\"11\"").replace("\"last\":\"5\"", "\"last\":\"55\"");
            byte[] saved = table.save(new byte[0], 10, 50).orElseThrow();
            is("what is saved", new String(saved, UTF_8), ahead);
            table.grant(1, 1, 55);
            is("nothing has to be saved", table.save(saved, 10, 50).isEmpty(), true);
            table.grant(1, 1, 56);
            is("something has to be saved", table.save(saved, 10, 50).isPresent(), true);
            refuses("in place of bytes", "HS_NOT_JSON", "not-json", () -> table.save("{".getBytes(UTF_8), 10, 50));
        }
    }

    private static void reads() throws Exception {
        Grant read = Slicelet.readGrant("shop", grant(7, 8));
        is("the grant", read, new Grant(7, 2, 1, Kind.GUARD, 3, 8, 18, List.of(new Grant.Range(0, Long.MIN_VALUE))));
        refuses("of another job", "HS_OTHER_JOB", "other-job", () -> Slicelet.readGrant("store", grant(7, 8)));
        StringBuilder ranges = new StringBuilder();
        List<Grant.Range> wanted = new ArrayList<>();
        for (int start = 0; start < 200; start += 2) {
            ranges.append(start == 0 ? "[" : ",[").append(String.format("\"%d\",\"%d\"]", start, start + 1));
            wanted.add(new Grant.Range(start, start + 1));
        }
        String longer = new String(grant(7, 8), UTF_8).replace("[\"0\",\"9223372036854775808\"]", ranges);
        is("100 ranges", Slicelet.readGrant("shop", longer.getBytes(UTF_8)).ranges(), wanted);
    }

    /** Texts and rows of more than the first room: 64 tasks own 1,024 slices in turn, and ask for two grants each. */
    private static void grows() throws Exception {
        try (Table table = steadyTable()) {
            StringBuilder slices = new StringBuilder();
            for (int slice = 0; slice < 1024; slice++) {
                String start = Long.toString(slice * (1L << 53));
                slices.append(slice == 0 ? "[" : ",").append(String.format("[\"%s\",[%d]]", start, slice % 64 + 1));
            }
            byte[] wide = assignment(2, slices.append("]").toString());
            table.propose(1, wide, 3);
            table.commit(1, 4);
            is("the assignment", new String(table.committed(), UTF_8), new String(wide, UTF_8));
            for (int number = 0; number < 128; number++) {
                Grant read = Slicelet.readGrant("shop", table.grant(number % 64 + 1, 1, 5));
                is("ranges of a grant", read.ranges().size(), 16);
            }
            List<Table.Row> rows = table.rows();
            is("how many rows", rows.size(), 128);
            is("the last row", rows.get(127), new Table.Row(128, 64, 1, Kind.GUARD, 2, 105));
        }
    }

    public static void main(String[] words) throws Exception {
        serves();
        tables();
        saves();
        reads();
        grows();
        handles();
        covers();
        tokens();
        blocks();
        receives();
        resumes();
        looks();
        threads();
        locks();
        System.out.println(passed + " passed, " + failed + " failed");
        System.exit(failed == 0 ? 0 : 1);
    }
}
