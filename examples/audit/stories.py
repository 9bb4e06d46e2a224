"""Stories: what happens to the service, call by call. They are played by one process that carries
all messages, and that tells the others the time.

A line has the time, a process, a call and what the call is given, and perhaps `= MARK`, by which a
bug names the line that is logged for it. A grant, a note or a handle is named by its place among
those that the story made, and an assignment by its generation; a call is left out if there is no
such thing, or no such process. A key is a text, or a slice key after `#`. `kill` kills a process,
and `open` or `restore` starts it again. Without a bug each story is one run, and its clocks are
timely.
"""

from dataclasses import dataclass

from actors import PLAIN, SPARSE, WHOLE, Settings
from machines import Policy
from tickets import CLOCK, COUNTER, HYBRID

HALF, QUARTER = 1 << 62, 1 << 61

OWNERS = """
0    table     take 1                          = take
1    table     propose 1 1 0:1 half:2
2    table     commit 1                        = first-commit
"""

LEASES = OWNERS + """
3    task-1    open                            = open-1
3    task-1    start 1                         = start-1
4    task-2    open                            = open-2
4    task-2    start 1                         = start-2
5    table     grant 1 1                       = grant-1
6    task-1    hear 1                          = hear-1
7    table     grant 2 1                       = grant-2
8    task-2    hear 2                          = hear-2
"""

TERMS = OWNERS + """
10   table     take 2                          = held
500  table     renew 1
1000 table     take 2                          = moved
1500 table     renew 1                         = late
1500 table     propose 1 2 0:1                 = ended
1500 table     take 2                          = second
1501 table     renew 1                         = old
1502 table     propose 2 2 0:1
1503 table     commit 1                        = older
1504 table     commit 2                        = right
1505 table     commit 2                        = nothing
1506 table     propose 2 2 0:1                 = stale
1507 table     propose 2 4 0:1                 = skipped
1508 table     propose 2 3 0:1,2               = many
1509 table     propose 2 3 0:2                 = third
1510 table     propose 2 3 0:1                 = again
1511 table     propose 2 9 0:1                 = both
1512 table     phase                           = phase
"""

READINGS = OWNERS + """
50   table     take 2
40   table     grant 1 1                       = after
39   table     renew 1                         = back
4611686018427387904 table take 2               = range
"""

COMMITS = LEASES + """
20   table     propose 1 2 0:1
21   table     commit 1                        = guard
22   table     grant 1 1
23   task-1    hear 3
24   task-1    release guard
25   table     free 1
26   table     commit 1                        = other
30   task-2    release guard
31   table     free 2
32   table     commit 1                        = free
33   table     propose 1 3 0:1 half:2
34   table     commit 1                        = bridge
102  table     commit 1                        = over
"""

WAITING = LEASES + """
20   table     propose 1 2 0:1
95   table     commit 1                        = first
97   table     commit 1
105  table     commit 1                        = second
107  table     commit 1                        = third
108  table     rows                            = rows
"""

GRANTS = """
0    table     grant 1 1                       = early
0    table     take 1
1    table     propose 1 1 0:1 half:2
1    table     grant 1 1                       = empty
2    table     commit 1
3    task-1    open
3    task-1    start 1
3    table     grant 1 1                       = guard
4    task-1    hear 2
5    table     grant 1 1
6    task-1    hear 3
20   table     propose 1 2 0:1
21   table     grant 1 1
22   task-1    hear 4
23   task-1    release guard
24   table     free 1                          = freed
25   table     free 1                          = again
26   table     rows                            = rows
27   table     commit 1                        = held
28   table     grant 1 1                       = spent
"""

NOTES = LEASES + """
20   task-1    release guard
21   table     grant 1 1
22   task-1    hear 3
23   table     free 1                          = first
24   table     free 1                          = again
25   task-1    start 2
26   table     grant 1 2
27   task-1    hear 4                          = hear
28   task-1    release guard
29   table     free 2                          = life
108  task-2    release guard                   = late
109  table     free 3                          = over
"""

RENEWAL = LEASES + """
10   task-1    hold hello                      = hold
11   task-1    hear 1                          = same
12   task-1    hold abc                        = other
50   table     grant 1 1                       = grant
51   task-1    hear 3                          = hear
52   task-1    check 1                         = check
53   task-1    hear 1                          = older
54   task-1    hold hello                      = again
139  task-1    serve hello                     = last
140  task-1    serve hello                     = ended
140  task-1    check 2                         = broken
141  task-1    serve abc                       = nothing
141  task-2    check 1                         = stranger
"""

MOVE = LEASES + """
10   task-1    hold hello                      = hold
11   client-1  learn 1                         = learn
12   client-1  look hello                      = look
20   table     propose 1 2 0:2
21   task-1    release guard
22   table     free 1                          = free-1
23   task-2    release guard                   = release-2
24   table     free 2
25   table     commit 1                        = commit
26   table     grant 2 1                       = grant
27   task-2    hear 3                          = hear
28   task-2    serve hello                     = moved
28   task-1    serve hello                     = left
28   task-1    hear 1                          = again
29   table     propose 1 3 0:1 half:2
30   table     grant 2 1
31   task-2    hear 4                          = bridge
32   task-2    release guard
33   table     free 3
33   task-2    serve abc                       = kept
33   task-2    serve hello                     = beyond
34   table     commit 1
35   table     grant 1 1
36   task-1    hear 5                          = back
37   task-1    serve hello                     = served
38   task-1    check 1                         = gap
40   task-1    start 2
41   task-1    check 1                         = life
"""

BRIDGE = LEASES + """
15   table     grant 1 1
20   table     propose 1 2 0:1
21   task-1    hold hello
22   table     grant 1 1
23   task-1    hear 4
23   task-1    hear 3                          = late
24   task-1    serve hello                     = both
25   task-1    serve abc                       = other
26   task-1    release guard                   = release
27   task-1    serve hello                     = bridge
27   task-1    check 1                         = check
28   table     free 1                          = free
29   task-2    release guard
30   table     free 2
31   table     commit 1
32   table     grant 1 1
33   task-1    hear 5
34   task-1    serve hello
34   task-1    serve abc                       = gained
35   task-1    check 1                         = still
36   task-1    release bridge
"""

DENIALS = OWNERS + """
3    task-1    open
3    task-1    serve hello                     = down
3    table     grant 1 1
4    task-1    hear 1                          = unheard
4    task-1    release guard                   = idle
5    task-1    start 1
6    task-1    serve hello                     = asked
6    task-1    release guard                   = nothing
7    table     grant 2 1
8    task-1    hear 2                          = foreign
20   task-1    hear 1
19   task-1    serve hello                     = behind
19   task-1    release guard                   = back
19   task-1    start 2                         = begun
21   task-1    start 1                         = same
21   task-1    hold hello
19   task-1    check 1                         = early
22   task-1    start 2
23   task-1    serve hello                     = kept
24   task-1    hear 1                          = lived
25   table     grant 1 2
115  task-1    hear 3                          = late
"""

LIVES = LEASES + """
10   task-1    hold hello
11   table     grant 1 2
12   table     grant 1 1
13   task-1    hear 4
14   task-1    start 2
15   task-1    hear 3                          = older
16   task-1    hold hello
17   task-1    check 1                         = past
20   task-1    kill
20   task-1    open                            = open
13   task-1    serve hello                     = down
13   task-1    start 2                         = twice
13   task-1    start 3
14   task-1    check 2                         = stranger
15   table     grant 1 3                       = grant
16   task-1    hear 5                          = hear
17   task-1    hold hello                      = hold
"""

HISTORY = """
0    task-3    open
1    task-3    start 1 x65536
1    task-3    start 65537                     = full
"""

CLERKS = OWNERS + """
3    client-1  look hello                      = unknown
3    client-1  learn 1                         = learn
4    client-1  look hello                      = lower
4    client-1  look abc                        = upper
5    table     propose 1 2 0:2
5    client-1  learn 2                         = proposed
6    table     commit 1
7    client-1  learn 2
8    client-1  learn 1                         = older
8    client-1  learn 2                         = same
9    client-1  look hello                      = moved
9    client-1  forget
9    client-1  look hello                      = forgotten
9    client-1  learn 1
9    client-2  learn 2
9    client-2  look abc
"""

LOSS = LEASES + """
20   table     lose                            = lose
20   table     rows                            = rows
21   task-1    release guard
22   table     free 1                          = free
23   table     propose 1 2 0:1
24   table     grant 1 1                       = grant
104  table     commit 1                        = grace
107  table     commit 1                        = end
"""

KEPT = LEASES + """
20   table     propose 1 2 0:1
30   table     kill
31   table     restore                         = restore
32   task-1    release guard
33   table     free 1                          = free
34   table     phase                           = phase
35   table     renew 1                         = renew
36   table     grant 1 1                       = grant
37   table     commit 1                        = grace
107  table     commit 1                        = end
"""

AHEAD = LEASES + """
12   table     grant 1 1
13   task-1    hear 3
15   table     kill
20   table     restore                         = restore
16   table     grant 1 1                       = early
21   table     grant 1 1                       = grant
22   task-1    hear 4
23   table     propose 1 2 0:1
119  table     commit 1                        = grace
120  table     commit 1                        = held
121  table     commit 1
"""

TWO_TABLES = LEASES + """
20   table     leave
21   table     restore
22   table     grant 1 1
23   old-table grant 2 1                       = old
"""

EDGES = LEASES + """
10   task-1    serve #4611686018427387903
10   task-1    serve #4611686018427387904      = next
10   task-2    serve #4611686018427387904      = first
10   task-2    serve #9223372036854775807
11   client-1  learn 1
11   client-1  look #4611686018427387904       = look
140  task-1    serve #0                        = ended
"""


@dataclass(frozen=True)
class Story:
    """A text, what the processes know, and whether it goes right if there is no bug."""

    text: str
    settings: Settings = Settings(Policy())
    is_right: bool = True


def told_with(text: str, form: str = PLAIN, tickets: str = COUNTER, **policy: int) -> Story:
    return Story(text, Settings(Policy(**policy), form=form, tickets=tickets))


STORIES = {
    "terms": Story(TERMS),
    "readings": Story(READINGS),
    "commits": Story(COMMITS),
    "waiting": Story(WAITING),
    "grants": told_with(GRANTS, numbers=4),
    "notes": Story(NOTES),
    "renewal": Story(RENEWAL),
    "move": Story(MOVE),
    "move-whole": told_with(MOVE, WHOLE),
    "move-clock": told_with(MOVE, tickets=CLOCK),
    "move-hybrid": told_with(MOVE, tickets=HYBRID),
    "bridge": Story(BRIDGE),
    "denials": Story(DENIALS),
    "lives": Story(LIVES),
    "lives-hybrid": told_with(LIVES, tickets=HYBRID),
    "history": Story(HISTORY),
    "clerks": Story(CLERKS),
    "clerks-sparse": told_with(CLERKS, SPARSE),
    "loss": Story(LOSS),
    "kept": Story(KEPT),
    "kept-far": told_with(KEPT, numbers=1 << 32),
    "ahead": Story(AHEAD, Settings(Policy(), ahead=(4, 8))),
    "two-tables": Story(TWO_TABLES, is_right=False),
    "edges": told_with(EDGES, SPARSE),
}
