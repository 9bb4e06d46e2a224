// Who holds what: an explicit-state model of the admitted lives of one task
// (breadth first, so a trace is a shortest one). README.md says what is
// modelled. Usage: lives [max=MILLIONS] name=value ...
#include <cstdint>
#include <cstdio>
#include <cstdlib>
#include <cstring>
#include <functional>
#include <map>
#include <string>
#include <vector>
typedef uint8_t u8;
typedef uint64_t u64;

constexpr int NP = 3, NH = 2, NPL = 2, NG = 4, NL = 6;

// Rules and events, by name. A rule is 1 where it is kept; an event is 1 where
// it may happen.
static std::map<std::string, int> opt = {
    // sizes
    {"guard", 2},
    {"bridge", 0},
    {"procs", 3},
    {"lives", 4},
    {"grants", 3},
    {"hosts", 2},
    {"norm", 0}, // 1: a plane whose next write must fail is taken as one
                 // without a table, and planes are sorted
    // rules of the design
    {"grace", 1},        // admission waits for the grace after a restore
    {"cas", 1},          // a call is stored over the version that its plane read
    {"stored_first", 1}, // answered only after stored
    {"adm_cas", 1},      // admission is in the same compare-and-set as the grant (0:
                         // in one of its own; -1: in memory alone)
    {"rise", 1},         // lower lives are refused
    {"boot", 1},         // at-once admission needs the boot id of the admitted life
    {"inode", 1},        // .. and the device and inode of the lock's file (0: its path alone)
    {"lock", 1},         // .. and the lock
    {"stop_order", 1},   // stop() closes the slicelet before it unlocks
    {"note_key", 1},     // a note needs the key of its life
    {"ended_below", 1},  // ended notes are taken of lives below the admitted one
                         // alone (0: of every life, with its key)
    {"note_upto", 1},    // a note closes rows up to its number alone
    {"task_rows", 1},    // admission waits for the rows of all lives of the task
                         // (0: of the admitted life)
    {"at_turn", 1},      // lives are judged at the call's turn (0: before the batch)
    {"lockless_key", 0}, // a process without the lock writes its key in the
                         // folder (and is recorded with it)
    {"need_lock", 0},    // a process without the lock draws no life
    {"evict_void", 1},   // evict makes the key void
    {"evict_waits", 1},  // .. and the next life waits for the rows
    {"end_waits", 1},    // ended only at a reading past the kept deadline
    {"tomb", 1},         // a row that ended is kept, and a PUT goes on from it
    {"incarnation", 1},  // a write compares the holder's incarnation besides the version
    {"went_back", 1},    // a plane that sees a lower version stops
    {"recover", 1},      // recover (before any grant) waits out the longest term
    {"ahead", 0},        // 1: values are saved a tick ahead, and a lease within them
                         // is answered without a write; 2: the first of a life too
    {"lives_cas", 1},    // a life is given once
    {"timely", 1},       // 0: the task's clock may be a tick late
    // events
    {"repl", 0},         // slicelets are replaced in a process; the old one may go on
    {"abandon_note", 0}, // .. and ended notes are sent of a life that was given up
    {"reboot", 0},
    {"copy", 0},
    {"shared", 0},
    {"twin", 0},
    {"lock_lost", 0},
    {"clone", 0},
    {"evict", 0},
    {"del", 0},
    {"back", 0},
    {"hand", 0},        // hand: rows are handed over, 1 bound to the version, 2 not
    {"old_release", 0}, // a grant of a life that was never admitted, of the release before
    {"claims_key", 0},  // a life's key is checked only from its first grant on:
                        // a stranger may show another
};
static int o_guard, o_bridge, o_procs, o_lives, o_grants, o_hosts, o_grace, o_cas, o_sf, o_adm, o_rise, o_boot, o_inode,
    o_lock, o_stop, o_nkey, o_upto, o_trows, o_turn, o_llk, o_needlock, o_evoid, o_ewait, o_endw, o_tomb, o_inc, o_wb,
    o_rec, o_lcas, o_timely, o_repl, o_abn, o_reboot, o_copy, o_shared, o_twin, o_ll, o_clone, o_evict, o_del, o_back,
    o_hand, o_old, o_ebelow, o_norm, o_ahead;

#pragma pack(push, 1)
struct Grant {
    u8 life, kind, rem, sent, note;
}; // rem: ticks left; sent: its answer left a plane
struct Slic {
    u8 life, hold[2], last[2];
}; // life 0: none open
struct Proc {
    u8 st, host, lock, keys, boot, fid, phase;
    Slic cur, nxt;
};
struct Pend {
    u8 life, kind, rem, admits, life2, early;
}; // a call that is played and not stored
struct Plane {
    u8 held, fresh, adm, evicted, tomb, rows, grace, stopped, ver, inc;
    u8 aboot, afid, avoid_, cov;
    Pend pend;
};
struct Row {
    u8 adm, aboot, afid, avoid_, evicted, D, tomb, ver, inc, need_rec;
};
struct Host {
    u8 boot, fid, lock, keys;
};
struct State {
    Grant g[NG];
    u8 ng;
    Proc p[NP];
    Plane pl[NPL];
    Row row, snap;
    u8 snapped;
    Host h[NH];
    u8 given, of[NL];
    u8 ended, reboots, handed, hrows, hgrace, hver, evicts, dels, copies, clones;
};
#pragma pack(pop)

static bool hasLease(const State &s, const Slic &c) {
    for (int k = 0; k < 2; k++)
        if (c.life && c.hold[k]) {
            return true;
        } // compaction removes those that ended
    return false;
}
static bool serving(const State &s, int i) {
    const Proc &p = s.p[i];
    return p.st == 1 && (hasLease(s, p.cur) || hasLease(s, p.nxt));
}

static int ownerOf(const State &s, int life) {
    return (int)s.of[life] - 1;
} // the process that drew a life

struct Succ {
    State s;
    std::string label;
};
static bool wantLabels = false;
static std::vector<Succ> out;
static void normal(State &s);
static void emit(const State &s, const char *fmt, int a = 0, int b = 0, int c = 0) {
    Succ x;
    x.s = s;
    if (o_norm)
        normal(x.s);
    if (wantLabels) {
        char buf[160];
        snprintf(buf, 160, fmt, a, b, c);
        x.label = buf;
    }
    out.push_back(std::move(x));
}

static void compact(State &s) { // drop grants that ended, and renumber
    int map[NG + 1];
    map[0] = 0;
    int n = 0;
    bool any = false;
    for (int j = 0; j < s.ng; j++)
        if (!s.g[j].rem)
            any = true;
    if (!any)
        return;
    u8 keep[NG];
    for (int j = 0; j < s.ng; j++) {
        keep[j] = s.g[j].rem > 0;
        if (keep[j])
            n++;
        map[j + 1] = n;
    }
    auto slic = [&](Slic &c) {
        for (int k = 0; k < 2; k++) {
            if (c.hold[k])
                c.hold[k] = keep[c.hold[k] - 1] ? map[c.hold[k]] : 0;
            c.last[k] = map[c.last[k]];
        }
    };
    for (int i = 0; i < NP; i++) {
        slic(s.p[i].cur);
        slic(s.p[i].nxt);
    }
    auto rows = [&](u8 r) {
        u8 q = 0;
        for (int j = 0; j < s.ng; j++)
            if (keep[j] && (r >> j & 1))
                q |= 1 << (map[j + 1] - 1);
        return q;
    };
    for (int k = 0; k < NPL; k++)
        s.pl[k].rows = rows(s.pl[k].rows);
    s.hrows = rows(s.hrows);
    int m = 0;
    for (int j = 0; j < s.ng; j++)
        if (keep[j])
            s.g[m++] = s.g[j];
    for (int j = m; j < s.ng; j++)
        memset(&s.g[j], 0, sizeof(Grant));
    s.ng = m;
}
static void drop(Plane &a) {
    u8 st = a.stopped, ver = a.ver;
    memset(&a, 0, sizeof a);
    a.stopped = st;
    if (o_back)
        a.ver = ver;
}
static void wrote(State &s, int k) { // plane k has written the row
    s.row.ver = o_back ? s.row.ver + 1 : 0;
    s.row.inc = k + 1;
    if (o_hand == 1 && s.handed) {
        s.handed = 3;
        s.hrows = s.hgrace = 0;
    }
    for (int q = 0; q < NPL; q++)
        if (q != k) {
            s.pl[q].fresh = 0;
        }
    s.pl[k].fresh = 1;
    s.pl[k].ver = s.row.ver;
    s.pl[k].inc = k + 1;
}
static bool mayWrite(const State &s, int k) {
    const Plane &a = s.pl[k];
    if (!o_cas)
        return true;
    if (!o_back)
        return a.fresh;
    return a.ver == s.row.ver && (!o_inc || s.row.inc == k + 1);
}
static void ended(State &s, int i) {
    Proc &p = s.p[i];
    p.st = 2;
    if (p.lock) {
        s.h[p.host].lock = 0;
        p.lock = 0;
    }
    memset(p.cur.hold, 0, 2);
    memset(p.nxt.hold, 0, 2);
    memset(p.cur.last, 0, 2);
    memset(p.nxt.last, 0, 2);
    p.phase = 0;
}

static void normal(State &s) {
    for (int k = 0; k < NPL; k++)
        if (!mayWrite(s, k) && !s.pl[k].pend.early && !s.pl[k].cov)
            drop(s.pl[k]);
    if (!o_back && !o_hand && memcmp(&s.pl[0], &s.pl[1], sizeof(Plane)) < 0) {
        Plane t = s.pl[0];
        s.pl[0] = s.pl[1];
        s.pl[1] = t;
    }
    if (!o_back)
        s.row.inc = 0;
}

static bool admissible(const State &s, const Plane &a, int life, int who, int extra) {
    bool open = false;
    for (int j = 0; j < s.ng; j++)
        if ((a.rows >> j & 1) && s.g[j].rem && (o_trows || s.g[j].life == a.adm))
            open = true;
    if (extra && (o_trows || extra == a.adm))
        open = true;
    if (o_evict && !o_ewait && a.evicted && a.evicted == a.adm)
        return true;
    if (!open && (!o_grace || !a.grace))
        return true;
    if (!a.adm || who < 0 || a.avoid_)
        return false;
    const Proc &p = s.p[who];
    if (!(p.keys >> a.adm & 1))
        return false;
    if (p.cur.life == a.adm || p.nxt.life == a.adm)
        return true;                                 // the same process
    bool folder = p.lock || p.phase == 9 || !o_lock; // from the locked folder (claimed when it asked)
    return folder && a.afid && (!o_boot || a.aboot == p.boot) && (o_inode ? a.afid == p.fid : true);
}
static void store(State &s, int k, const Pend &d,
                  bool answered) { // the write of a grant
    Plane &a = s.pl[k];
    int who = ownerOf(s, d.life);
    if (d.rem > s.row.D)
        s.row.D = d.rem;
    if (o_ahead) {
        if (o_guard + 1 > s.row.D)
            s.row.D = o_guard + 1;
        a.cov = 2;
    } // leases of this tick and of the next are covered
    if (d.admits && (o_adm == 1 || (o_adm == -1 && !s.row.adm))) {
        s.row.adm = d.life;
        s.row.aboot = who >= 0 ? s.p[who].boot : 0;
        s.row.afid = who >= 0 ? s.p[who].fid : 0;
        s.row.avoid_ = 0;
        if (o_evict)
            s.row.evicted = 0;
    }
    a.adm = d.admits ? d.life : a.adm;
    if (d.admits) {
        a.aboot = who >= 0 ? s.p[who].boot : 0;
        a.afid = who >= 0 ? s.p[who].fid : 0;
        a.avoid_ = 0;
        a.evicted = 0;
    }
    wrote(s, k);
    if (!d.early && d.rem && s.ng < NG) {
        s.g[s.ng] = {d.life, d.kind, d.rem, (u8)answered, 0};
        a.rows |= 1 << s.ng;
        s.ng++;
    }
}
static void successors(const State &s) {
    out.clear();
    const char *PN = "AB";
    { // time
        State t = s;
        for (int j = 0; j < t.ng; j++)
            t.g[j].rem--;
        for (int k = 0; k < NPL; k++) {
            auto &a = t.pl[k];
            if (a.grace)
                a.grace--;
            if (a.cov)
                a.cov--;
            if (a.pend.life && a.pend.rem)
                a.pend.rem--;
        }
        if (t.row.D)
            t.row.D--;
        if (t.snapped && t.snap.D)
            t.snap.D--;
        if (t.hgrace)
            t.hgrace--;
        if (o_timely) {
            compact(t);
            emit(t, "a tick passes");
        } else { // the task's clock is a tick late: leases that ended are still
                 // held (the table's rows are closed)
            State u = t;
            for (int k = 0; k < NPL; k++)
                for (int j = 0; j < u.ng; j++)
                    if (u.g[j].rem == 0)
                        u.pl[k].rows &= ~(1 << j);
            for (int j = 0; j < u.ng; j++)
                if (u.g[j].rem == 0) {
                    u.g[j].rem = 1;
                    u.g[j].sent = 2;
                } // one tick more for the task, once
            bool twice = false;
            for (int j = 0; j < s.ng; j++)
                if (s.g[j].sent == 2 && s.g[j].rem == 1)
                    twice = true;
            if (!twice)
                emit(u, "a tick passes (a task's clock is late)");
            compact(t);
            emit(t, "a tick passes");
        }
    }
    // processes
    for (int i = 0; i < o_procs; i++) {
        const Proc &p = s.p[i];
        if (!p.st) {
            for (int h = 0; h < o_hosts; h++) {
                if (s.given >= o_lives)
                    break;
                State t = s;
                Proc &q = t.p[i];
                q.st = 1;
                q.host = h;
                q.boot = s.h[h].boot;
                if (!s.h[h].lock) {
                    q.lock = 1;
                    t.h[h].lock = i + 1;
                    q.keys = s.h[h].keys;
                    q.fid = s.h[h].fid;
                } else if (o_needlock)
                    continue;
                else {
                    q.lock = 0;
                    q.fid = o_llk ? s.h[h].fid : 0;
                    q.keys = (o_lock ? 0 : s.h[h].keys);
                    if (!o_lock)
                        q.fid = s.h[h].fid;
                }
                u8 life = ++t.given;
                q.cur.life = life;
                t.of[life] = i + 1;
                if (q.lock && t.p[i].keys)
                    t.ended |= q.keys;
                q.keys |= 1 << life;
                if (q.lock || o_llk) {
                    t.h[h].keys |= 1 << life;
                    if (o_shared)
                        t.h[1 - h].keys |= 1 << life;
                }
                emit(t,
                     q.lock ? "process %d starts on host %d, has the lock, draws life %d"
                            : "process %d starts on host %d without the lock, draws life "
                              "%d",
                     i + 1, h + 1, life);
                if (!o_lcas && s.given) {
                    State v = s;
                    Proc &w = v.p[i];
                    w = q;
                    w.cur.life = s.given;
                    w.keys = (q.keys & ~(1 << life)) | (1 << s.given);
                    v.h[h].lock = t.h[h].lock;
                    v.ended = t.ended & ~(1 << s.given);
                    emit(v, "process %d starts on host %d and is given life %d a second time", i + 1, h + 1, s.given);
                }
            }
            break;
        } // in order
    }
    for (int i = 0; i < o_procs; i++) {
        const Proc &p = s.p[i];
        if (p.st != 1)
            continue;
        // hear
        for (int z = 0; z < 2; z++) {
            const Slic &c = z ? p.nxt : p.cur;
            if (!c.life)
                continue;
            for (int j = 0; j < s.ng; j++)
                if (s.g[j].sent == 1 && s.g[j].life == c.life && j + 1 > c.last[s.g[j].kind]) {
                    State t = s;
                    Slic &d = z ? t.p[i].nxt : t.p[i].cur;
                    d.hold[s.g[j].kind] = j + 1;
                    d.last[s.g[j].kind] = j + 1;
                    if (z) {
                        t.ended |= 1 << t.p[i].cur.life;
                        t.p[i].cur = t.p[i].nxt;
                        memset(&t.p[i].nxt, 0, sizeof(Slic));
                    }
                    emit(t, "process %d hears the lease of life %d, %d ticks left", i + 1, c.life, s.g[j].rem);
                }
            for (int k = 0; k < 2; k++)
                if (c.hold[k]) {
                    State t = s;
                    Slic &d = z ? t.p[i].nxt : t.p[i].cur;
                    t.g[d.hold[k] - 1].note = 1;
                    d.hold[k] = 0;
                    emit(t, "process %d releases a lease of life %d", i + 1, c.life);
                }
        }
        if (p.phase != 2) {
            State t = s;
            for (int z = 0; z < 2; z++) {
                const Slic &c = z ? p.nxt : p.cur;
                for (int k = 0; k < 2; k++)
                    if (c.hold[k])
                        t.g[c.hold[k] - 1].note = 1;
            }
            ended(t, i);
            emit(t, "process %d closes its slicelet, then frees the lock (or is killed)", i + 1);
        }
        if (!o_stop && p.lock) {
            State t = s;
            t.h[p.host].lock = 0;
            t.p[i].lock = 0;
            t.p[i].phase = 9;
            emit(t, "process %d in stop() frees the lock; its slicelet is open", i + 1);
        }
        if (o_ll && p.lock) {
            State t = s;
            t.h[p.host].lock = 0;
            t.p[i].lock = 0;
            t.p[i].phase = 9;
            emit(t,
                 "the lock of process %d is freed while it runs (a descriptor is "
                 "closed)",
                 i + 1);
        }
        if (o_repl && !p.nxt.life && s.given < o_lives && p.cur.life) {
            State t = s;
            u8 life = ++t.given;
            t.of[life] = i + 1;
            t.p[i].nxt.life = life;
            t.p[i].keys |= 1 << life;
            if (p.lock)
                t.h[p.host].keys |= 1 << life;
            emit(t, "process %d draws life %d for its next slicelet", i + 1, life);
        }
        if (o_repl && o_abn && p.nxt.life) {
            State t = s;
            t.ended |= 1 << p.nxt.life;
            memset(&t.p[i].nxt, 0, sizeof(Slic));
            emit(t,
                 "process %d has no answer, goes on with life %d, sends ended notes "
                 "of life %d",
                 i + 1, p.cur.life, p.nxt.life);
        }
        if (o_clone && !s.clones)
            for (int j = 0; j < o_procs; j++)
                if (!s.p[j].st) {
                    State t = s;
                    t.p[j] = p;
                    t.p[j].host = 1 - p.host;
                    t.p[j].lock = 0;
                    t.p[j].phase = 9;
                    t.clones = 1;
                    emit(t, "the machine of process %d is cloned with its memory: process %d", i + 1, j + 1);
                    break;
                }
    }
    for (int h = 0; h < o_hosts; h++) {
        if (o_reboot && s.reboots < 1) {
            State t = s;
            bool any = false;
            for (int i = 0; i < NP; i++)
                if (t.p[i].st == 1 && t.p[i].host == h) {
                    any = true;
                    ended(t, i);
                }
            if (any) {
                t.h[h].boot += 2;
                t.reboots++;
                emit(t, "host %d is booted again", h + 1);
            }
        }
        if (o_copy && (s.h[h].keys & ~s.h[1 - h].keys) && !s.copies) {
            State t = s;
            t.h[1 - h].keys |= s.h[h].keys;
            t.copies = 1;
            emit(t, "the folder of host %d is copied to host %d", h + 1, 2 - h);
        }
    }
    // planes
    for (int k = 0; k < NPL; k++) {
        const Plane &a = s.pl[k];
        if (a.held || a.pend.life) {
            State t = s;
            drop(t.pl[k]);
            if (o_back == 2)
                t.pl[k].ver = 0;
            emit(t, o_back == 2 ? "plane %c is started again" : "plane %c fails and forgets its table", PN[k]);
        }
        if (!a.stopped && !(a.held && mayWrite(s, k) && !a.pend.life) &&
            !a.pend.life) { // take over: read, and write that it holds
            if (o_back && o_wb && a.ver > s.row.ver) {
                State t = s;
                drop(t.pl[k]);
                t.pl[k].stopped = 1;
                if (o_rec)
                    t.row.need_rec = 1;
                emit(t, "plane %c sees a lower version and stops the job", PN[k]);
            } else if (!s.row.need_rec && !(o_back && s.row.ver >= 6)) {
                State t = s;
                Plane &b = t.pl[k];
                drop(b);
                b.held = 1;
                b.adm = s.row.adm;
                b.aboot = s.row.aboot;
                b.afid = s.row.afid;
                b.avoid_ = s.row.avoid_;
                b.evicted = s.row.evicted;
                b.tomb = s.row.tomb;
                b.grace = s.row.D;
                if (o_cas)
                    wrote(t, k);
                else
                    b.fresh = 1;
                emit(t, "plane %c takes the job over: life %d is admitted, grace %d", PN[k], b.adm, b.grace);
            }
        }
        if (a.held && !a.pend.life && !a.tomb) {
            for (int life = 1; life <= s.given; life++) {
                if (s.ng >= o_grants)
                    break;
                int who = ownerOf(s, life);
                if (who < 0)
                    continue;
                if (a.evicted == life)
                    continue;
                bool adm = false;
                bool sees = false;
                if (life != a.adm) {
                    if (o_rise && life < a.adm)
                        continue;
                    adm = admissible(s, a, life, who, 0);
                    sees = adm;
                    if (!adm)
                        continue;
                }
                for (int kind = 0; kind < (o_bridge ? 2 : 1); kind++) {
                    State t = s;
                    Pend &d = t.pl[k].pend;
                    d = {(u8)life, (u8)kind, (u8)(kind ? o_bridge : o_guard), (u8)adm, 0, 0};
                    if (adm && o_adm == 0 && t.row.adm == a.adm) {
                        t.row.adm = life;
                        t.row.aboot = s.p[who].boot;
                        t.row.afid = s.p[who].fid;
                    } else if (adm && o_adm == 0)
                        continue;
                    if (!o_sf) {
                        d.early = 1;
                        t.g[t.ng] = {(u8)life, (u8)kind, d.rem, 1, 0};
                        t.pl[k].rows |= 1 << t.ng;
                        t.ng++;
                    }
                    if (o_ahead && a.cov && (!adm || o_ahead == 2)) {
                        t.pl[k].pend = {0, 0, 0, 0, 0, 0};
                        t.g[t.ng] = {(u8)life, (u8)kind, d.rem, 1, 0};
                        t.pl[k].rows |= 1 << t.ng;
                        t.ng++;
                        if (adm) {
                            t.pl[k].adm = life;
                            t.pl[k].aboot = s.p[who].boot;
                            t.pl[k].afid = s.p[who].fid;
                        }
                        t.g[t.ng - 1].rem = o_guard;
                        emit(t, "plane %c answers life %d from what it saved ahead", PN[k], life);
                        continue;
                    }
                    emit(t,
                         adm ? "plane %c lets life %d in and makes a lease for it"
                             : "plane %c makes a lease for life %d",
                         PN[k], life);
                }
                // a batch: a call of the admitted life just before it, judged before
                // the batch
                if (!o_turn && adm && a.adm && a.adm != life && s.ng + 1 < NG && a.evicted != a.adm &&
                    ownerOf(s, a.adm) >= 0) {
                    State t = s;
                    Pend &d = t.pl[k].pend;
                    d = {(u8)life, 0, (u8)o_guard, 1, a.adm, 0};
                    emit(t,
                         "plane %c makes two calls that wait, judged before: a lease for "
                         "life %d, and life %d is let in",
                         PN[k], a.adm, life);
                }
            }
        }
        if (a.held && !a.pend.life && o_adm == 0 && a.adm != s.row.adm) {
            State t = s;
            t.pl[k].adm = s.row.adm;
            t.pl[k].aboot = s.row.aboot;
            t.pl[k].afid = s.row.afid;
            emit(t,
                 "plane %c meets a life that it does not know and reads the store: "
                 "life %d is admitted",
                 PN[k], s.row.adm);
        }
        if (a.pend.life) {
            if (o_back && s.row.ver >= 6) {
            } else if (mayWrite(s, k)) {
                State t = s;
                Pend d = a.pend;
                t.pl[k].pend = {0, 0, 0, 0, 0, 0};
                if (d.life2 && d.rem) {
                    t.g[t.ng] = {d.life2, 0, d.rem, 1, 0};
                    t.pl[k].rows |= 1 << t.ng;
                    t.ng++;
                }
                store(t, k, d, true);
                emit(t, "plane %c has it stored and answers life %d", PN[k], d.life);
                if (o_adm != -1 || 1) {
                    State v = s;
                    v.pl[k].pend = {0, 0, 0, 0, 0, 0};
                    store(v, k, d, false);
                    drop(v.pl[k]);
                    v.pl[k].fresh = 0;
                    emit(v, "plane %c has it stored and fails before it answers life %d", PN[k], d.life);
                }
            } else {
                State t = s;
                drop(t.pl[k]);
                emit(t,
                     "plane %c: the store has another version; it drops the call and "
                     "its table",
                     PN[k]);
            }
        }
        if (a.held && !a.pend.life) {
            for (int j = 0; j < s.ng; j++)
                if (s.g[j].note) {
                    u8 m = 0;
                    for (int q = 0; q < s.ng; q++)
                        if (s.g[q].life == s.g[j].life && s.g[q].kind == s.g[j].kind && (q <= j || !o_upto))
                            m |= 1 << q;
                    if ((a.rows & m) && mayWrite(s, k)) {
                        State t = s;
                        t.pl[k].rows &= ~m;
                        wrote(t, k);
                        emit(t, "plane %c takes the note of a lease of life %d", PN[k], s.g[j].life);
                    }
                }
            for (int life = 1; life <= s.given; life++) {
                bool forged = !o_nkey;
                if (!((s.ended >> life & 1) || forged))
                    continue;
                if (o_ebelow && !forged && life >= a.adm)
                    continue;
                u8 m = 0;
                for (int q = 0; q < s.ng; q++)
                    if (s.g[q].life == life)
                        m |= 1 << q;
                if ((a.rows & m) && mayWrite(s, k)) {
                    State t = s;
                    t.pl[k].rows &= ~m;
                    wrote(t, k);
                    emit(t,
                         (s.ended >> life & 1) ? "plane %c takes ended notes of life %d"
                                               : "plane %c takes a forged note of life %d",
                         PN[k], life);
                }
            }
            if (o_evict && !s.evicts && a.adm && mayWrite(s, k)) {
                State t = s;
                t.pl[k].evicted = t.row.evicted = a.adm;
                if (o_evoid)
                    t.pl[k].avoid_ = t.row.avoid_ = 1;
                wrote(t, k);
                t.evicts = 1;
                emit(t, "an operator evicts life %d at plane %c", a.adm, PN[k]);
            }
            if (o_del && mayWrite(s, k)) {
                if (!a.tomb && s.dels < 2) {
                    State t = s;
                    t.pl[k].tomb = t.row.tomb = 1;
                    t.dels++;
                    wrote(t, k);
                    emit(t, "the job is ended: ending is stored by plane %c", PN[k]);
                }
                if (a.tomb == 1 && (s.row.D == 0 || !o_endw)) {
                    State t = s;
                    t.pl[k].tomb = t.row.tomb = 2;
                    wrote(t, k);
                    emit(t, "plane %c stores ended", PN[k]);
                }
                if (a.tomb == 2) {
                    State t = s;
                    t.pl[k].tomb = t.row.tomb = 0;
                    if (!o_tomb) {
                        t.row.adm = t.row.D = 0;
                        t.row.afid = t.row.aboot = 0;
                    }
                    wrote(t, k);
                    drop(t.pl[k]);
                    t.pl[k].held = 1;
                    t.pl[k].fresh = 1;
                    t.pl[k].adm = t.row.adm;
                    t.pl[k].aboot = t.row.aboot;
                    t.pl[k].afid = t.row.afid;
                    t.pl[k].grace = t.row.D;
                    emit(t, "a PUT begins the job again at plane %c", PN[k]);
                }
            }
            if (o_hand) {
                if (mayWrite(s, k) && !s.handed) {
                    State t = s;
                    t.hrows = a.rows;
                    t.hgrace = a.grace;
                    t.handed = k + 1;
                    if (o_hand == 1) {
                        emit(t, "plane %c hands its rows over", PN[k]);
                    } else
                        emit(t, "plane %c hands its rows over, and goes on", PN[k]);
                }
            }
        }
        if (o_hand && s.handed && s.handed != k + 1 && s.handed < 3) {
            const Plane &f = s.pl[s.handed - 1]; // the rows are those of the version that is replaced
            (void)f;                             /* with 1 any write since then has made them void */
            {
                State t = s;
                Plane &b = t.pl[k];
                drop(b);
                b.held = 1;
                b.adm = s.row.adm;
                b.aboot = s.row.aboot;
                b.afid = s.row.afid;
                b.tomb = s.row.tomb;
                b.rows = s.hrows;
                b.grace = s.hgrace;
                t.handed = 3;
                t.hrows = t.hgrace = 0;
                wrote(t, k);
                emit(t, "plane %c takes the job with the rows that were handed over", PN[k]);
            }
        }
        if (k == 0 && s.row.need_rec == 2 && s.row.D == 0) {
            State t = s;
            t.row.need_rec = 0;
            emit(t, "recover has waited out the longest term");
        }
        if (a.stopped && s.row.need_rec == 1) {
            State t = s;
            t.row.need_rec = 2;
            int most = o_guard > o_bridge ? o_guard : o_bridge;
            if (t.row.D < most)
                t.row.D = most;
            wrote(t, k);
            for (int q = 0; q < NPL; q++) {
                t.pl[q].stopped = 0;
                drop(t.pl[q]);
                t.pl[q].ver = t.row.ver;
            }
            emit(t, "recover: the row's deadline is a longest term from now", 0);
        }
    }
    if (o_back) {
        if (!s.snapped) {
            State t = s;
            t.snap = s.row;
            t.snapped = 1;
            emit(t, "a backup of the row is made (version %d)", s.row.ver);
        }
        if (s.snapped == 1 && s.snap.ver != s.row.ver) {
            State t = s;
            t.row = s.snap;
            t.snapped = 2;
            memset(&t.snap, 0, sizeof(Row));
            for (int k = 0; k < NPL; k++)
                t.pl[k].fresh = 0;
            emit(t, "the backup is put back: version %d, life %d is admitted", s.snap.ver, s.snap.adm);
            if (o_rec >= 2) {
                State v = t;
                v.row.need_rec = 2;
                int most = o_guard > o_bridge ? o_guard : o_bridge;
                v.row.D = most;
                if (o_rec == 2)
                    v.row.ver = s.row.ver + 1;
                v.row.inc = 0;
                out.pop_back();
                emit(v, "the backup is put back, and recover runs before any plane "
                        "reads it");
            }
        }
    }
}
static u64 hashOf(const State &s) {
    const u8 *b = (const u8 *)&s;
    u64 h = 0x9E3779B97F4A7C15ull;
    size_t n = sizeof(State);
    size_t i = 0;
    for (; i + 8 <= n; i += 8) {
        u64 w;
        memcpy(&w, b + i, 8);
        h ^= w;
        h *= 0xff51afd7ed558ccdull;
        h ^= h >> 32;
        h *= 0xc4ceb9fe1a85ec53ull;
        h ^= h >> 29;
    }
    u64 w = 0;
    memcpy(&w, b + i, n - i);
    h ^= w + 0x1234567;
    h *= 0xff51afd7ed558ccdull;
    h ^= h >> 33;
    h *= 0xc4ceb9fe1a85ec53ull;
    h ^= h >> 33;
    return h ? h : 1;
}
struct Set {
    std::vector<u64> t;
    u64 mask, n = 0;
    Set() : t(1 << 20), mask((1 << 20) - 1) {}
    bool add(u64 x) {
        if (n * 10 > t.size() * 7)
            grow();
        u64 i = x & mask;
        while (t[i]) {
            if (t[i] == x)
                return false;
            i = (i + 1) & mask;
        }
        t[i] = x;
        n++;
        return true;
    }
    void grow() {
        std::vector<u64> o;
        o.swap(t);
        t.assign(o.size() * 2, 0);
        mask = t.size() - 1;
        for (u64 x : o)
            if (x) {
                u64 i = x & mask;
                while (t[i])
                    i = (i + 1) & mask;
                t[i] = x;
            }
    }
};

int main(int argc, char **argv) {
    u64 most = 60;
    std::string given;
    for (int i = 1; i < argc; i++) {
        std::string a = argv[i];
        auto e = a.find('=');
        if (e == std::string::npos)
            return 2;
        std::string n = a.substr(0, e);
        int v = atoi(a.c_str() + e + 1);
        if (n == "max") {
            most = v;
            continue;
        }
        if (!opt.count(n)) {
            fprintf(stderr, "no %s\n", n.c_str());
            return 2;
        }
        opt[n] = v;
        given += " " + a;
    }
    auto &O = opt;
    o_guard = O["guard"];
    o_bridge = O["bridge"];
    o_procs = O["procs"];
    o_lives = O["lives"];
    o_grants = O["grants"];
    o_hosts = O["hosts"];
    o_grace = O["grace"];
    o_cas = O["cas"];
    o_sf = O["stored_first"];
    o_adm = O["adm_cas"];
    o_rise = O["rise"];
    o_boot = O["boot"];
    o_inode = O["inode"];
    o_lock = O["lock"];
    o_stop = O["stop_order"];
    o_nkey = O["note_key"];
    o_upto = O["note_upto"];
    o_trows = O["task_rows"];
    o_turn = O["at_turn"];
    o_llk = O["lockless_key"];
    o_needlock = O["need_lock"];
    o_evoid = O["evict_void"];
    o_ewait = O["evict_waits"];
    o_endw = O["end_waits"];
    o_tomb = O["tomb"];
    o_inc = O["incarnation"];
    o_wb = O["went_back"];
    o_rec = O["recover"];
    o_lcas = O["lives_cas"];
    o_timely = O["timely"];
    o_repl = O["repl"];
    o_abn = O["abandon_note"];
    o_reboot = O["reboot"];
    o_copy = O["copy"];
    o_shared = O["shared"];
    o_twin = O["twin"];
    o_ll = O["lock_lost"];
    o_clone = O["clone"];
    o_evict = O["evict"];
    o_del = O["del"];
    o_back = O["back"];
    o_hand = O["hand"];
    o_old = O["old_release"];
    o_ebelow = O["ended_below"];
    o_norm = O["norm"];
    o_ahead = O["ahead"];
    State s0;
    memset(&s0, 0, sizeof s0);
    s0.h[0].boot = 1;
    s0.h[1].boot = o_twin ? 1 : 2;
    s0.h[0].fid = 1;
    s0.h[1].fid = 2;
    if (o_shared)
        s0.h[1].fid = 1;
    if (o_old) { // process 1 holds a lease of the release before, which admitted
                 // nobody
        Proc &p = s0.p[0];
        p.st = 1;
        p.host = 0;
        p.lock = 1;
        p.boot = 1;
        p.fid = 1;
        p.cur.life = 1;
        s0.of[1] = 1;
        s0.h[0].lock = 1;
        s0.given = 1;
        s0.row.D = o_guard;
        Plane &a = s0.pl[0];
        a.held = 1;
        a.fresh = 1;
        a.rows = 1;
        s0.g[0] = {1, 0, (u8)o_guard, 1, 0};
        s0.ng = 1;
        p.cur.hold[0] = 1;
        p.cur.last[0] = 1;
        p.keys = 0;
    }
    Set seen;
    std::vector<uint32_t> parent;
    std::vector<uint16_t> act;
    std::vector<State> cur, next;
    std::vector<uint32_t> ids, nids;
    seen.add(hashOf(s0));
    parent.push_back(0);
    act.push_back(0);
    cur.push_back(s0);
    ids.push_back(0);
    u64 trans = 0;
    int depth = 0;
    long bad = -1;
    auto violated = [&](const State &s) {
        int n = 0;
        for (int i = 0; i < NP; i++)
            n += serving(s, i);
        return n > 1;
    };
    while (!cur.empty() && bad < 0) {
        next.clear();
        nids.clear();
        for (size_t c = 0; c < cur.size() && bad < 0; c++) {
            successors(cur[c]);
            for (size_t x = 0; x < out.size(); x++) {
                trans++;
                if (!seen.add(hashOf(out[x].s)))
                    continue;
                uint32_t id = parent.size();
                parent.push_back(ids[c]);
                act.push_back(x);
                if (violated(out[x].s)) {
                    bad = id;
                    break;
                }
                next.push_back(out[x].s);
                nids.push_back(id);
            }
        }
        if (bad >= 0)
            break;
        cur.swap(next);
        ids.swap(nids);
        depth++;
        if (seen.n > most * 1000000ull)
            break;
    }
    bool full = cur.empty() && bad < 0;
    printf("%s |%s | states %llu, transitions %llu, depth %d%s\n",
           bad >= 0 ? "VIOLATED"
           : full   ? "holds"
                    : "holds so far",
           given.c_str(), (unsigned long long)seen.n, (unsigned long long)trans, depth,
           full       ? " (all)"
           : bad >= 0 ? ""
                      : " (cut off)");
    if (bad >= 0) {
        std::vector<long> path;
        for (long b = bad; b; b = parent[b])
            path.push_back(b);
        wantLabels = true;
        State s = s0;
        for (int j = (int)path.size() - 1; j >= 0; j--) {
            successors(s);
            printf("  %2d. %s\n", (int)path.size() - j, out[act[path[j]]].label.c_str());
            s = out[act[path[j]]].s;
        }
        printf("      may serve now:");
        for (int i = 0; i < NP; i++)
            if (serving(s, i))
                printf(" process %d (life %d)", i + 1, hasLease(s, s.p[i].cur) ? s.p[i].cur.life : s.p[i].nxt.life);
        printf("\n");
    }
    return bad >= 0 ? 1 : 0;
}
