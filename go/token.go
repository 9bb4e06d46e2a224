package hourstable

/*
#include "hourstable.h"
*/
import "C"

import (
	"bytes"
	"encoding/binary"
	"encoding/hex"
	"fmt"
	"unsafe"
)

// Token is a fencing token, which a task sends to a store with each write of a key: the
// epoch of the job, the greatest generation of the held leases that cover the key, and the
// life of the task, each with the high byte first. A store keeps the greatest token of the
// key, and refuses a write with a lower one. The order of the bytes is that of the tokens,
// and so is that of their texts in hexadecimal.
type Token [16]byte

// TokenOf returns the token of an epoch, a generation and a life.
func TokenOf(epoch uint32, generation uint64, life uint32) (made Token) {
	binary.BigEndian.PutUint32(made[:], epoch)
	binary.BigEndian.PutUint64(made[4:], generation)
	binary.BigEndian.PutUint32(made[12:], life)
	return made
}

// ParseToken returns the token of a text that String made.
func ParseToken(text string) (made Token, err error) {
	found, err := hex.DecodeString(text)
	if err == nil && len(found) != len(made) {
		err = fmt.Errorf("hourstable: a token of %d bytes is none of %d", len(found), len(made))
	}
	copy(made[:], found)
	return made, err
}

// Compare returns -1 if the token is below the other one, 0 if it is the same and 1 if it
// is above it.
func (t Token) Compare(other Token) int { return bytes.Compare(t[:], other[:]) }

// String returns the token in hexadecimal, 32 characters.
func (t Token) String() string { return hex.EncodeToString(t[:]) }

func (t *Token) c() *C.struct_hs_token { return (*C.struct_hs_token)(unsafe.Pointer(t)) }

// Fence is what a store keeps for one key: the greatest token with which it accepted a
// write. It is kept with what was written, in one transaction. The zero value is that of a
// key before its first write.
type Fence struct{ Greatest Token }

// Accept offers a write with a token, and returns whether it is accepted: then the token
// is the greatest. A new owner offers its token before it reads: until then a late write
// of an earlier owner may be accepted.
func (f *Fence) Accept(token Token) bool {
	return C.hs_fence_accept(f.Greatest.c(), token.c()) == C.HS_DONE
}

// Token returns the token that the task has for a key. most is the most owners of a slice
// by the policy of the job, and epoch a number above those of the jobs before it that wrote
// to the same store. ErrManyOwners if most is above 1, then the codes of Serve.
func (s *Slicelet) Token(most uint64, epoch uint32, key []byte, at uint64) (Token, error) {
	s.mutex.RLock()
	defer s.mutex.RUnlock()
	var made Token
	code := C.hs_slicelet_token(&s.c, C.uint64_t(most), C.uint32_t(epoch), first(key), C.size_t(len(key)), C.uint64_t(at),
		made.c())
	return made, done(code, nil)
}

// TokenAt is Token by slice key, without the hash of the key.
func (s *Slicelet) TokenAt(most uint64, epoch uint32, sliceKey, at uint64) (Token, error) {
	s.mutex.RLock()
	defer s.mutex.RUnlock()
	var made Token
	code := C.hs_slicelet_token_at(&s.c, C.uint64_t(most), C.uint32_t(epoch), C.uint64_t(sliceKey), C.uint64_t(at),
		made.c())
	return made, done(code, nil)
}
