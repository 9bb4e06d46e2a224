package service

import (
	"bytes"
	"context"
	"encoding/json"
	"errors"
	"fmt"
	"io"
	"math"
	"net/http"
	"net/url"
	"strconv"
	"sync"
	"time"
)

const (
	ticketHeader  = "Hourstable-Ticket"
	readingHeader = "Hourstable-Reading"
	holderHeader  = "Hourstable-Holder"  // the address of the plane that holds the job, if another one handed the call on
	versionHeader = "Hourstable-Version" // of a call and of its answer
	speaks        = 1                    // the version of the calls, and the greatest of an answer that is taken
	requestHeader = "Hourstable-Request" // by which the log of a plane names the request
	longestWait   = 30 * time.Second     // of a GET that waits
	usualTimeout  = 5 * time.Second
	mostBytes     = 1 << 21         // of an answer
	mostReading   = uint64(1) << 62 // those of a table are below it
	toldAgain     = time.Minute     // after which a failure of a plane is logged once more
	hedgeAfter    = 3               // of its time a third, after which another plane is asked as well
)

// control is the control planes of a job, of which one answers at a time. A call
// goes to the one that answered last, and to the next one if it does not.
type control struct {
	job, secret string
	planes      *planes
	client      *http.Client
	tickets     *tickets
	local       func() (uint64, error)
	timeout     time.Duration
	logger      Logger
	retries     *budget
	hedges      *budget

	mutex    sync.Mutex
	troubles map[string]uint64 // of planes, by what they are
	told     map[string]time.Time
	silences map[string]time.Duration // of planes that send beats
}

func newControl(urls []string, job string) *control {
	return &control{
		job: job, planes: newPlanes(urls), client: http.DefaultClient, timeout: usualTimeout, logger: silent{},
		retries: newBudget(0), hedges: newBudget(0), troubles: map[string]uint64{},
		told: map[string]time.Time{}, silences: map[string]time.Duration{},
	}
}

// checkPlanes returns an error if there is no control plane or a URL is none. It does
// not say which, as a URL may have a password.
func checkPlanes(urls []string) error {
	if len(urls) == 0 {
		return errors.New("hourstable: there is no control plane")
	}
	for at, one := range urls {
		if it, err := url.Parse(one); err != nil || it.Host == "" {
			return fmt.Errorf("hourstable: item %d of Control is no URL", at)
		}
	}
	return nil
}

// shown returns the URL of a plane without its password.
func shown(plane string) string {
	it, err := url.Parse(plane)
	if err != nil {
		return ""
	}
	return it.Redacted()
}

// request is a call of a job.
type request struct {
	method, path string
	body         []byte
	key          string             // of the life that gives leases back; "" for none
	timeout      time.Duration      // of a GET that waits; that of the control planes if 0
	read         func(answer) error // takes the answer: an error if no control plane answers so
	late         func(answer)       // takes an answer that comes after another one; nil if one plane at a time is asked
}

// answer is what a control plane answered with 200 to 204, or 409.
type answer struct {
	status  int
	body    []byte
	reading *uint64 // of the table, at which the call was made
	sent    uint64  // the local reading before the request was sent
}

// object returns the members of an answer.
func (a answer) object(members any) error {
	text := bytes.TrimSpace(a.body)
	if len(text) == 0 || text[0] != '{' {
		return fmt.Errorf("%.80q is no object", a.body)
	}
	return json.Unmarshal(text, members)
}

// unreached is why planes did not do a call, and when to ask again.
type unreached struct {
	what      string // connection, unreadable, or a status
	request   string // its id
	why       error
	after     time.Duration // what the plane asks for
	isBusy    bool          // a plane is at a limit
	isMissing bool          // no plane has the job
}

func (u *unreached) Error() string { return ErrUnreachable.Error() + ": " + u.why.Error() }
func (u *unreached) Unwrap() error { return u.why }
func (u *unreached) Is(target error) bool {
	return target == ErrUnreachable || target == ErrNoJob && u.isMissing
}

// wait returns how long to wait before the call is made again; limit is the longest
// wait, 0 if a plane may ask for a minute.
func (u *unreached) wait(failures *backoff, limit time.Duration) time.Duration {
	wait := failures.wait()
	if u.after > wait {
		wait = u.after
	}
	if limit > 0 && wait > limit {
		wait = limit
	}
	if u.isBusy && wait < time.Second {
		wait = time.Second
	}
	return wait
}

// attempt is how a call at one plane ended.
type attempt struct {
	plane string
	made  answer
	err   error
	panic any
}

// call makes a call of the job. The error is that of the context, *unreached, which is
// ErrUnreachable, or one of this process.
func (c *control) call(ctx context.Context, asked request) (answer, error) {
	c.retries.add()
	c.hedges.add()
	tried := tries{control: c, failed: &unreached{what: "connection", why: errors.New("there is no control plane")}}
	if asked.late != nil {
		return c.hedge(ctx, asked, &tried)
	}
	for plane := tried.next(c.retries); plane != ""; plane = tried.next(c.retries) {
		made, err := c.try(ctx, plane, asked)
		if isOver := tried.ended(plane, err); isOver {
			return made, err
		}
	}
	return answer{}, tried.why()
}

// hedge makes a call, and once a try has waited for a third of its time, at the next
// plane as well. The first answer counts; one that comes later is for asked.late.
func (c *control) hedge(ctx context.Context, asked request, tried *tries) (answer, error) {
	third := time.NewTimer(c.timeout / hedgeAfter)
	defer third.Stop()
	ended, running := make(chan attempt), 0
	over := make(chan struct{})
	defer close(over)
	for plane := tried.next(c.retries); plane != "" || running > 0; {
		if plane != "" {
			running++
			go c.attempt(ctx, plane, asked, ended, over)
		}
		plane = ""
		select {
		case <-third.C:
			if plane = c.planes.next(tried.tried, c.timeout); c.planes.isSilent(plane) {
				plane = ""
			} else if plane != "" {
				plane = tried.next(c.hedges)
			}
		case one := <-ended:
			running--
			if one.panic != nil {
				panic(one.panic)
			}
			if isOver := tried.ended(one.plane, one.err); isOver {
				return one.made, one.err
			}
			if running == 0 {
				plane = tried.next(c.retries)
			}
		}
	}
	return answer{}, tried.why()
}

// attempt makes a call at a plane, and tells who waits for it; or, if the call is over,
// who hears what comes late.
func (c *control) attempt(ctx context.Context, plane string, asked request, ended chan<- attempt, over <-chan struct{}) {
	one := attempt{plane: plane}
	defer func() {
		one.panic = recover()
		select {
		case ended <- one:
		case <-over:
			c.cameLate(one, asked)
		}
	}()
	one.made, one.err = c.try(ctx, plane, asked)
}

func (c *control) cameLate(one attempt, asked request) {
	var trouble *unreached
	switch {
	case one.panic != nil:
		c.logger.Error("a call that came late panicked", "why", one.panic)
	case errors.As(one.err, &trouble):
		c.leave(one.plane, trouble)
	case one.err == nil:
		c.planes.answered(one.plane)
		asked.late(one.made)
	}
}

// tries are those of one call, each at another plane.
type tries struct {
	control *control
	tried   []string
	failed  *unreached // of the last one
	isBusy  bool
	missing int // that have no such job
}

// next returns the plane to ask now, "" for none: the first one, or as long as the
// budget has some left another one.
func (t *tries) next(left *budget) string {
	plane := t.control.planes.next(t.tried, t.control.timeout)
	if plane == "" || len(t.tried) > 0 && !left.take() {
		return ""
	}
	t.tried = append(t.tried, plane)
	return plane
}

// ended notes how a try ended, and says whether the call is over.
func (t *tries) ended(plane string, err error) bool {
	var trouble *unreached
	if !errors.As(err, &trouble) {
		if err == nil {
			t.control.planes.answered(plane)
		}
		return true
	}
	t.control.leave(plane, trouble)
	t.failed, t.isBusy = trouble, t.isBusy || trouble.isBusy
	if trouble.what == "404" {
		t.missing++
	}
	return false
}

// why returns why no plane did the call.
func (t *tries) why() error {
	t.failed.isBusy = t.isBusy
	t.failed.isMissing = t.missing > 0 && t.missing == t.control.planes.count()
	return t.failed
}

// leave leaves a plane that failed, counts it and logs it once a minute.
func (c *control) leave(plane string, why *unreached) {
	c.planes.failed(plane, why.what == "connection", c.timeout)
	if c.count(plane, why) {
		c.logger.Warn("a control plane did not do a call",
			"plane", shown(plane), "request", why.request, "why", why.why, "mend", mending(why.what))
	}
}

// count returns whether the failure is to be logged.
func (c *control) count(plane string, why *unreached) bool {
	c.mutex.Lock()
	defer c.mutex.Unlock()
	c.troubles[why.what]++
	name, now := plane+" "+why.what, time.Now()
	last, isTold := c.told[name]
	if isTold && now.Sub(last) < toldAgain {
		return false
	}
	c.told[name] = now
	return true
}

// mending returns what an operator does about a failure.
func mending(what string) string {
	switch what {
	case "connection":
		return "see that the plane runs and is reached from here"
	case "version":
		return "upgrade this task"
	case "unreadable":
		return "see that the URL is that of a plane, and what stands between"
	case "401":
		return "give the secret of the plane, or let a proxy pass it"
	case "403":
		return "give the secret of a caller whose role may do it (--callers of the plane), or call it by a name of --host"
	case "404":
		return "PUT the job, or correct the URL"
	case "429":
		return "see at which limit the plane is"
	case "500", "502", "503", "504":
		return "see the log of the plane and its store"
	}
	return "run a plane and a client that know each other"
}

// counts returns how often planes failed, by how.
func (c *control) counts() map[string]uint64 {
	c.mutex.Lock()
	defer c.mutex.Unlock()
	return copied(c.troubles)
}

func (c *control) try(ctx context.Context, plane string, asked request) (answer, error) {
	timeout := asked.timeout
	if timeout == 0 {
		timeout = c.timeout
	}
	within, cancel := context.WithTimeout(ctx, timeout)
	defer cancel()
	address := plane + "/jobs/" + url.PathEscape(c.job) + asked.path
	posed, err := http.NewRequestWithContext(within, asked.method, address, bytes.NewReader(asked.body))
	if err != nil {
		return answer{}, &unreached{what: "connection", why: err}
	}
	sent, err := c.prepare(posed)
	if err != nil {
		return answer{}, err
	}
	if asked.timeout > 0 {
		posed.Header.Set(beatHeader, "1")
	}
	if asked.key != "" {
		posed.Header.Set(keyHeader, asked.key)
	}
	made, err := answer{}, error(nil)
	if response, text, failed := c.fetch(plane, posed, cancel); failed != nil {
		err = &unreached{what: "connection", why: failed}
	} else {
		made, err = c.taken(response, text, sent, asked)
	}
	if ctx.Err() != nil {
		return answer{}, ctx.Err()
	}
	var trouble *unreached
	if errors.As(err, &trouble) {
		trouble.request = posed.Header.Get(requestHeader)
	}
	return made, err
}

// prepare draws the ticket of a request, and returns the local reading. An error is
// one of this process.
func (c *control) prepare(posed *http.Request) (sent uint64, err error) {
	if c.secret != "" {
		posed.Header.Set("Authorization", "Bearer "+c.secret)
	}
	posed.Header.Set("Content-Type", "application/json")
	posed.Header.Set(versionHeader, strconv.Itoa(speaks))
	ticket, err := c.tickets.draw()
	if err != nil {
		return 0, err
	}
	posed.Header.Set(ticketHeader, strconv.FormatUint(ticket, 10))
	posed.Header.Set(requestHeader, posed.Header.Get(ticketHeader))
	return c.local()
}

// fetch returns a response of a plane and its body; cancel ends the request. A plane
// that has sent beats begins to answer a GET that waits at once.
func (c *control) fetch(plane string, posed *http.Request, cancel context.CancelFunc) (*http.Response, []byte, error) {
	waits := posed.Header.Get(beatHeader) != ""
	var head *time.Timer
	if silence := c.silenceOf(plane); waits && silence > 0 {
		head = time.AfterFunc(silence, cancel)
	}
	response, err := c.client.Do(posed)
	if head != nil && !head.Stop() && err != nil {
		return nil, nil, errSilent
	}
	if err != nil {
		return nil, nil, err
	}
	defer response.Body.Close()
	silence := silenceIn(response.Header)
	if waits {
		c.hear(plane, silence)
	}
	if silence > 0 && hasBeats(response.Header) {
		text, err := beaten(response, silence, cancel)
		return response, text, err
	}
	text, err := io.ReadAll(io.LimitReader(response.Body, mostBytes))
	return response, text, err
}

// silenceOf returns after how much silence a call of a plane ends that waits, 0 if
// nothing is known of its beats.
func (c *control) silenceOf(plane string) time.Duration {
	c.mutex.Lock()
	defer c.mutex.Unlock()
	return c.silences[plane]
}

func (c *control) hear(plane string, silence time.Duration) {
	c.mutex.Lock()
	defer c.mutex.Unlock()
	c.silences[plane] = silence
}

// taken returns the answer of a response, or what is wrong with it.
func (c *control) taken(response *http.Response, text []byte, sent uint64, asked request) (answer, error) {
	if says, err := strconv.ParseUint(response.Header.Get(versionHeader), 10, 64); err == nil && says > speaks {
		why := fmt.Errorf("the answer is of version %d, and this version of Hourstable speaks those up to %d", says, speaks)
		return answer{}, &unreached{what: "version", why: why}
	}
	if status := response.StatusCode; status >= 300 && status != http.StatusConflict {
		return answer{}, refusal(response, text)
	}
	made := answer{status: response.StatusCode, body: text, sent: sent}
	c.tickets.observe(response.Header.Get(ticketHeader))
	var err error
	if given := response.Header.Get(readingHeader); given != "" {
		var reading uint64
		if reading, err = strconv.ParseUint(given, 10, 64); reading >= mostReading {
			err = fmt.Errorf("%d is no reading", reading)
		}
		made.reading = &reading
	}
	if err == nil && asked.read != nil {
		err = asked.read(made)
	}
	if err != nil {
		return answer{}, &unreached{what: "unreadable", why: fmt.Errorf("%d: %w", made.status, err)}
	}
	c.planes.told(response.Header.Get(holderHeader))
	return made, nil
}

// refusal returns what a status says that is none of an answer.
func refusal(response *http.Response, text []byte) error {
	after := time.Duration(0)
	if seconds, err := strconv.ParseFloat(response.Header.Get("Retry-After"), 64); err == nil && seconds > 0 {
		after = time.Duration(math.Min(seconds, 60) * float64(time.Second))
	}
	return &unreached{
		what: strconv.Itoa(response.StatusCode), why: fmt.Errorf("%d %.200s", response.StatusCode, text), after: after,
		isBusy: response.StatusCode == http.StatusTooManyRequests,
	}
}
