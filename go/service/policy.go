package service

import (
	"context"
	"encoding/json"
	"errors"
	"fmt"
	"net/http"
	"path/filepath"
	"strings"
	"time"

	"hourstable"
)

// learnPolicy asks for the policy of the job, or creates the job.
func (t *Task) learnPolicy(ctx context.Context) error {
	failures := &backoff{least: 50 * time.Millisecond, most: 2 * time.Second}
	for {
		policy, err := t.policyTold(ctx)
		if err == nil {
			t.reached(nil)
			return t.usePolicy(policy)
		}
		if errors.Is(err, ErrNoJob) && t.config.Policy == nil {
			return fmt.Errorf("%w: %q", ErrNoJob, t.config.Job)
		}
		if errors.Is(err, ErrUnreachable) {
			t.reached(err)
		}
		if err := t.waitAfter(ctx, err, failures); err != nil {
			return err
		}
	}
}

// policyMembers are what the answer of a job says of its policy.
type policyMembers struct {
	Redundancy                        [2]uint64
	Skew, Guard, Bridge, Job, Numbers uint64
}

func (t *Task) policyTold(ctx context.Context) (map[string]any, error) {
	if t.config.Policy != nil {
		if err := t.create(ctx); err != nil {
			return nil, err
		}
	}
	var told struct{ Policy map[string]any }
	_, err := t.control.call(ctx, request{method: http.MethodGet, read: func(made answer) error {
		var members struct{ Policy policyMembers }
		if err := made.object(&members); err != nil {
			return err
		}
		if it := members.Policy; it.Guard == 0 || it.Bridge == 0 || it.Job == 0 || it.Numbers == 0 {
			return errors.New("the answer has no policy")
		}
		numbers := json.NewDecoder(strings.NewReader(string(made.body)))
		numbers.UseNumber()
		return numbers.Decode(&told)
	}})
	return told.Policy, err
}

// create creates the job. *Rejected if it has another policy, or the policy is none.
func (t *Task) create(ctx context.Context) error {
	body, err := json.Marshal(t.config.Policy)
	if err != nil {
		return &Rejected{0, "the policy is no JSON: " + err.Error()}
	}
	made, err := t.control.call(ctx, request{method: http.MethodPut, body: body, read: func(made answer) error {
		return made.object(&struct{}{})
	}})
	var trouble *unreached
	if errors.As(err, &trouble) && trouble.what == "400" && !strings.Contains(trouble.Error(), "ticket") {
		return &Rejected{http.StatusBadRequest, trouble.why.Error()}
	}
	if err == nil && made.status == http.StatusConflict {
		return &Rejected{made.status, "the job has another policy"}
	}
	return err
}

func (t *Task) usePolicy(members map[string]any) error {
	text, err := json.Marshal(members)
	if err != nil {
		return err
	}
	var told policyMembers
	if err := json.Unmarshal(text, &told); err != nil {
		return err
	}
	t.policy = hourstable.Policy{
		Low: told.Redundancy[0], High: told.Redundancy[1], Skew: told.Skew, Guard: told.Guard, Bridge: told.Bridge,
		Job: told.Job, Numbers: told.Numbers,
	}
	// A lease that is renewed at half of it leaves time for two calls that are lost.
	if most := t.guardFifth(); most < t.control.timeout {
		t.control.timeout = most
	}
	return t.openLog(members)
}

// openLog opens the log of the task, if it has one.
func (t *Task) openLog(policy map[string]any) error {
	if t.config.Logs == "" {
		return nil
	}
	job, err := jobLine(policy)
	if err != nil {
		return err
	}
	folder := filepath.Join(t.config.Logs, t.config.Job)
	log, err := openLog(folder, fmt.Sprintf("task-%d", t.config.Task), job, func(why error) {
		t.supervisor.note("log", why)
	})
	if err != nil {
		return err
	}
	t.mutex.Lock()
	defer t.mutex.Unlock()
	t.log = log
	return nil
}

func (t *Task) guardFifth() time.Duration {
	return time.Duration(t.policy.Guard) * time.Millisecond / 5
}
