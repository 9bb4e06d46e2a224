package service

import (
	"bufio"
	"bytes"
	"context"
	"errors"
	"fmt"
	"io"
	"mime"
	"net/http"
	"strconv"
	"strings"
	"time"
)

// A plane that takes long to answer a GET sends an empty line as often as its header
// says, and then the answer: a line with its status and its ticket, and its body. Two
// lines that are missing end the call.
const (
	keyHeader    = "Hourstable-Key"  // of a note: the key of its life
	beatHeader   = "Hourstable-Beat" // in a request 1, in an answer milliseconds
	beatKind     = "application/vnd.hourstable.beats"
	leastSilence = 500 * time.Millisecond // this process may be slow
)

var errSilent = errors.New("the plane is silent")

// silenceIn returns after how much silence a call ends, from what a plane says of its
// beats: two of them, and half of one for the way; 0 if it says nothing.
func silenceIn(header http.Header) time.Duration {
	milliseconds, err := strconv.ParseUint(header.Get(beatHeader), 10, 20)
	if err != nil || milliseconds == 0 {
		return 0
	}
	silence := time.Duration(milliseconds) * time.Millisecond * 5 / 2
	if silence < leastSilence {
		return leastSilence
	}
	return silence
}

// hasBeats says whether an answer comes after beats.
func hasBeats(header http.Header) bool {
	kind, _, err := mime.ParseMediaType(header.Get("Content-Type"))
	return err == nil && kind == beatKind
}

// beaten reads an answer that comes after beats into its response, and returns its
// body. cancel ends the call once the plane is silent.
func beaten(response *http.Response, silence time.Duration, cancel context.CancelFunc) ([]byte, error) {
	timer := time.AfterFunc(silence, cancel)
	defer timer.Stop()
	from := bufio.NewReader(io.LimitReader(response.Body, mostBytes))
	for {
		line, err := from.ReadString('\n')
		isLate := !timer.Reset(silence)
		if err != nil || isLate {
			return nil, whyCut(err, isLate)
		}
		if line == "\n" {
			continue
		}
		status, ticket, isWhole := strings.Cut(strings.TrimSuffix(line, "\n"), " ")
		response.StatusCode, err = strconv.Atoi(status)
		if !isWhole || err != nil || response.StatusCode < 200 || response.StatusCode > 599 {
			return nil, fmt.Errorf("%.40q is no line of an answer after beats", line)
		}
		response.Header.Set(ticketHeader, ticket)
		var body bytes.Buffer
		_, err = body.ReadFrom(from)
		return body.Bytes(), err
	}
}

func whyCut(err error, isLate bool) error {
	if isLate {
		return errSilent
	}
	if err == io.EOF {
		return io.ErrUnexpectedEOF
	}
	return err
}
