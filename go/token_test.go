package hourstable_test

import (
	"strings"
	"testing"

	. "hourstable"
)

func TestTokensOfALease(t *testing.T) {
	task := newSlicelet(t, 2)
	succeeds(t, "start", task.Start(1, 3))
	succeeds(t, "hear", task.Hear(grant(7, 3, 8), 5))
	token, err := task.Token(1, 9, []byte("hello"), 6)
	if wanted := TokenOf(9, 3, 1); err != nil || token != wanted {
		t.Errorf("the token is %v, %v, not %v", token, err, wanted)
	}
	if text := token.String(); text != "00000009000000000000000300000001" {
		t.Errorf("its text is %s", text)
	}
	if again, err := ParseToken(token.String()); err != nil || again != token {
		t.Errorf("the token of its text is %v, %v", again, err)
	}
	for _, wrong := range []string{"", "00", strings.Repeat("g", 32), strings.Repeat("0", 34)} {
		if made, err := ParseToken(wrong); err == nil {
			t.Errorf("%q is the token %v", wrong, made)
		}
	}
	if at, err := task.TokenAt(1, 9, SliceKey([]byte("hello")), 6); err != nil || at != token {
		t.Errorf("by slice key it is %v, %v", at, err)
	}
	_, err = task.Token(2, 9, []byte("hello"), 6)
	refuses(t, "a job of two owners", err, ErrManyOwners, "many-owners")
	_, err = task.TokenAt(1, 9, 1<<63, 6)
	refuses(t, "no slice key", err, ErrWrongForm, "wrong-form")
}

func TestAFence(t *testing.T) {
	var fence Fence
	offered := []struct {
		token Token
		taken bool
	}{
		{TokenOf(1, 2, 9), true}, {TokenOf(1, 2, 8), false}, {TokenOf(1, 1, 10), false}, {TokenOf(1, 2, 9), true},
		{TokenOf(1, 200, 1), true}, {TokenOf(0, 9, 9), false}, {TokenOf(2, 1, 1), true},
	}
	for _, it := range offered {
		before := fence.Greatest
		if taken := fence.Accept(it.token); taken != it.taken || taken != (before.Compare(it.token) <= 0) {
			t.Errorf("%v after %v is taken: %v", it.token, before, taken)
		}
	}
	if fence.Greatest != TokenOf(2, 1, 1) {
		t.Errorf("the store has %v", fence.Greatest)
	}
}
