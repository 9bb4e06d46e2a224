package hourstable

/*
#include "hourstable.h"
#include "local_clocks.h"

// The local reading of a call: `now`, or if that is to be read, what the clocks show and the suspension that is known.
struct local {
    int is_read;
    uint64_t now;
    int64_t suspension;
};

// What a call of a block is given and gives. It stands in Go's memory, in a Block, so that no call copies it.
struct made {
    struct hs_block block;
    struct hs_task_clock clock; // a copy, of which each call has its own
    struct local local;
    size_t needed; // SIZE_MAX if the clock refuses, and no call is made
};

static void read_local(struct made *it) {
    it->needed = SIZE_MAX;
    if (it->local.is_read) {
        struct local_reading read = reading_of(read_clocks(), it->local.suspension);
        it->local.now = read.ticks;
        it->local.suspension = read.suspension;
        it->local.is_read = 0; // a call that is made again has the same reading
    }
}

static int32_t enter(const struct hs_place *place, struct made *it, const uint8_t *key, size_t key_len, uint8_t *out,
                     size_t out_len) {
    read_local(it);
    return hs_slicelet_enter(place, &it->clock, it->local.now, key, key_len, &it->block, out, out_len, &it->needed);
}

static int32_t enter_at(const struct hs_place *place, struct made *it, uint64_t slice_key, uint8_t *out,
                        size_t out_len) {
    read_local(it);
    return hs_slicelet_enter_at(place, &it->clock, it->local.now, slice_key, &it->block, out, out_len, &it->needed);
}

static int32_t leave(const struct hs_place *place, struct made *it, uint8_t *out, size_t out_len) {
    read_local(it);
    return hs_slicelet_leave(place, &it->clock, it->local.now, &it->block, out, out_len, &it->needed);
}
*/
import "C"

// LineRoom is how many bytes a line of a block needs at most.
const LineRoom = 512

// Block is a block of work on a key, for Enter and Leave of a Slicelet: what the last
// call passed and wrote. One goroutine at a time uses it, for one block after the
// other if it likes.
type Block struct {
	Ticket uint64 // the place of the next call among all calls of the job: draw it before
	At     uint64 // the task's reading at which the last call was made
	Handle Handle // what Enter took, and Leave checks; zero if it took none
	Lease  Served // the lease under which Enter allowed the key; zero if it did not
	Called bool   // whether the last call was made; if not, there was no reading, and it has no line

	// Line is the line of the last call for the log, with its line feed. It is written
	// where the slice has capacity, such as make([]byte, 0, LineRoom); if it has none,
	// no line is wanted.
	Line []byte

	made C.struct_made // what the library is given and gives
}

// Enter enters a block of work on a key: it reads the local clock and then clock, takes
// a handle at that reading as Hold does, and writes the line of that call, in one call
// of the library. It allocates nothing if the line has room. local must not use clock; if
// it is nil, that call reads LocalTicks too.
// The codes of TaskClock.Read, with which no call is made, then those of Hold, which
// have a line. After any other error the clock is as before.
func (s *Slicelet) Enter(clock *TaskClock, local func() (uint64, error), key []byte, block *Block) error {
	code, err := s.call(clock, local, block, func(out *C.uint8_t, length C.size_t) C.int32_t {
		return C.enter(&s.c, &block.made, first(key), C.size_t(len(key)), out, length)
	})
	return block.entered(code, err)
}

// EnterAt is Enter by slice key, without the hash of the key. ErrWrongForm if no key
// has this slice key, which is 2^63 or more.
func (s *Slicelet) EnterAt(clock *TaskClock, local func() (uint64, error), sliceKey uint64, block *Block) error {
	code, err := s.call(clock, local, block, func(out *C.uint8_t, length C.size_t) C.int32_t {
		return C.enter_at(&s.c, &block.made, C.uint64_t(sliceKey), out, length)
	})
	return block.entered(code, err)
}

// Leave leaves a block of work: it reads the clocks as Enter does, checks the handle
// that Enter took as Check does, and writes the line of that call. The codes of
// TaskClock.Read, with which no call is made, then those of Check.
func (s *Slicelet) Leave(clock *TaskClock, local func() (uint64, error), block *Block) error {
	code, err := s.call(clock, local, block, func(out *C.uint8_t, length C.size_t) C.int32_t {
		return C.leave(&s.c, &block.made, out, length)
	})
	if err != nil {
		return err
	}
	return done(code, nil)
}

// call makes a call of a block beside others, at a local reading that is taken after the
// clock was copied, and keeps its reading and its line. If the line finds no room, it
// makes the call again at the same reading, which has changed nothing, with more.
func (s *Slicelet) call(clock *TaskClock, local func() (uint64, error), block *Block,
	call func(out *C.uint8_t, length C.size_t) C.int32_t) (C.int32_t, error) {
	s.mutex.RLock()
	defer s.mutex.RUnlock()
	it := &block.made
	it.clock = clock.copy() // before the local clock is read, so that it has read no later one
	before := it.clock
	block.Called, block.Line = false, block.Line[:0]
	if err := block.readLocal(local); err != nil {
		return 0, err
	}
	it.block = C.struct_hs_block{ticket: C.uint64_t(block.Ticket), handle: block.Handle.c()}
	line := block.Line[:cap(block.Line)]
	code := call(first(line), C.size_t(len(line)))
	localSuspension.keep(int64(it.local.suspension))
	if code == C.HS_NO_ROOM {
		line = make([]byte, it.needed)
		code = call(first(line), C.size_t(len(line)))
	}
	clock.gave(&before, &it.clock)
	if code >= 0 && it.needed != C.SIZE_MAX {
		block.Called, block.At, block.Line = true, uint64(it.block.at), line[:it.needed]
	}
	return code, nil
}

// readLocal takes the reading of a local clock, or lets the call read those of LocalTicks.
func (b *Block) readLocal(local func() (uint64, error)) error {
	if local == nil && hasLocalClocks() {
		b.made.local = C.struct_local{is_read: 1, suspension: C.int64_t(localSuspension.known.Load())}
		return nil
	}
	now, err := localOr(local)()
	b.made.local = C.struct_local{now: C.uint64_t(now)}
	return err
}

// entered keeps what Enter took.
func (b *Block) entered(code C.int32_t, err error) error {
	b.Handle, b.Lease = Handle{}, Served{}
	switch {
	case err != nil:
		return err
	case code != C.HS_DONE:
		told := b.made.block.told
		return done(code, &told)
	}
	b.Handle, b.Lease = handleOf(b.made.block.handle), leaseOf(b.made.block.told)
	return nil
}
