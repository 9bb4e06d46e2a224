package service

import (
	"encoding/json"
	"fmt"
	"strconv"
	"strings"

	"hourstable"
)

// number is a number of a message, which may be a text of digits.
type number uint64

func (n *number) UnmarshalJSON(text []byte) error {
	found, err := strconv.ParseUint(strings.Trim(string(text), `"`), 10, 64)
	*n = number(found)
	return err
}

// grantOf returns what the message of a grant of a job says. Whether all of the message
// is as it must be is what the library says when the grant is heard.
func grantOf(job string, message []byte) (hourstable.Grant, error) {
	var told struct {
		Job, Type string
		Value     struct {
			Number, Task, Life, Generation, Ends, Until number
			Kind                                        string
			Ranges                                      [][2]number
		}
	}
	if err := json.Unmarshal(message, &told); err != nil {
		return hourstable.Grant{}, err
	}
	if told.Job != job || told.Type != "grant" {
		return hourstable.Grant{}, fmt.Errorf("%.80q is no grant of %s", message, job)
	}
	it := told.Value
	made := hourstable.Grant{
		Number: uint64(it.Number), Task: uint64(it.Task), Life: uint64(it.Life), Generation: uint64(it.Generation),
		Ends: uint64(it.Ends), TableEnds: uint64(it.Until),
	}
	for _, kind := range kinds {
		if kind.String() == it.Kind {
			made.Kind = kind
		}
	}
	if made.Kind == 0 {
		return made, fmt.Errorf("%.80q is no kind of lease", it.Kind)
	}
	for _, edges := range it.Ranges {
		if edges[0] >= edges[1] {
			return made, fmt.Errorf("%d to %d is no range", edges[0], edges[1])
		}
		made.Ranges = append(made.Ranges, hourstable.Range{First: uint64(edges[0]), End: uint64(edges[1])})
	}
	return made, nil
}
