package service

import (
	"context"
	"errors"
	"fmt"
	"net/http"
	"strings"
	"sync/atomic"
	"testing"
	"time"
)

// beats answers a GET that waits as a plane does that takes long: beats, and then the text.
func beats(out http.ResponseWriter, in *http.Request, milliseconds, times int, text string) {
	out.Header().Set(beatHeader, fmt.Sprint(milliseconds))
	out.Header().Set("Content-Type", beatKind)
	out.WriteHeader(http.StatusOK)
	for ; times > 0; times-- {
		fmt.Fprint(out, "\n")
		out.(http.Flusher).Flush()
		select {
		case <-in.Context().Done():
			return
		case <-time.After(time.Duration(milliseconds) * time.Millisecond):
		}
	}
	fmt.Fprint(out, text)
}

func waits(asks *control, read func(answer) error) (answer, error) {
	return asks.call(context.Background(), request{method: "GET", path: "/phase", timeout: time.Hour, read: read})
}

func TestAnAnswerAfterBeats(t *testing.T) {
	for _, it := range []struct {
		text, failure string // that is in the error
		status        int
		body          string
	}{
		{"200 66816\n{\"committed\":7}", "", 200, `{"committed":7}`},
		{"200 66816\n\n{}\n", "", 200, "\n{}\n"},
		{"204 66816\n", "", 204, ""},
		{"503 66816\nthe store failed", "503", 0, ""},
		{"soon", "EOF", 0, ""},
		{"", "EOF", 0, ""},
		{"<html>\n", "no line", 0, ""},
		{"99 66816\n", "no line", 0, ""},
	} {
		asks := controlOf(t, plane(t, func(out http.ResponseWriter, in *http.Request) {
			if in.Header.Get(beatHeader) != "1" {
				t.Error("the call takes no beats")
			}
			beats(out, in, 20, 3, it.text)
		}))
		made, err := waits(asks, nil)
		if it.failure == "" {
			if err != nil || made.status != it.status || string(made.body) != it.body || drawn(t, asks.tickets)>>8 != 262 {
				t.Errorf("%q: %+v %v", it.text, made, err)
			}
		} else if !errors.Is(err, ErrUnreachable) || !strings.Contains(err.Error(), it.failure) {
			t.Errorf("%q: %+v %v", it.text, made, err)
		}
	}
}

// A plane that falls silent ends its calls, long before their limit of an hour: while it beats, and at the start.
func TestAPlaneThatFallsSilent(t *testing.T) {
	var isSilent atomic.Bool
	silent := plane(t, func(out http.ResponseWriter, in *http.Request) {
		if isSilent.Load() {
			<-in.Context().Done()
			return
		}
		beats(out, in, 20, 2, "")
		out.(http.Flusher).Flush()
		isSilent.Store(true)
		<-in.Context().Done()
	})
	asks := controlOf(t, silent)
	for range [2]int{} {
		if _, err := waits(asks, nil); !errors.Is(err, ErrUnreachable) || !errors.Is(err, errSilent) {
			t.Error(err)
		}
	}
	if asks.counts()["connection"] != 2 {
		t.Error(asks.counts())
	}
}

// A call that ends while it is beaten is not one that a plane failed.
func TestACallThatEndsAmongBeats(t *testing.T) {
	ctx, cancel := context.WithCancel(context.Background())
	asks := controlOf(t, plane(t, func(out http.ResponseWriter, in *http.Request) {
		time.AfterFunc(50*time.Millisecond, cancel)
		beats(out, in, 20, 1<<30, "")
	}))
	_, err := asks.call(ctx, request{method: "GET", timeout: time.Hour})
	if !errors.Is(err, context.Canceled) || len(asks.counts()) != 0 {
		t.Error(err, asks.counts())
	}
}
