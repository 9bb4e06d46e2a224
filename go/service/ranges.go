package service

import "hourstable"

// minus returns the slice keys of a set that are not in another one. Ranges of a set
// rise and do not touch.
func minus(some, others []hourstable.Range) []hourstable.Range {
	var made []hourstable.Range
	for _, one := range some {
		for _, other := range others {
			if other.End <= one.First || other.First >= one.End {
				continue
			}
			if one.First < other.First {
				made = append(made, hourstable.Range{First: one.First, End: other.First})
			}
			one.First = other.End
			if one.First >= one.End {
				break
			}
		}
		if one.First < one.End {
			made = append(made, one)
		}
	}
	return made
}

// union returns the slice keys that are in one of two sets.
func union(some, others []hourstable.Range) []hourstable.Range {
	var made []hourstable.Range
	all := append(minus(some, others), others...)
	for len(all) > 0 {
		least := 0
		for at := range all {
			if all[at].First < all[least].First {
				least = at
			}
		}
		one := all[least]
		all = append(all[:least], all[least+1:]...)
		if last := len(made) - 1; last >= 0 && made[last].End == one.First {
			made[last].End = one.End
		} else {
			made = append(made, one)
		}
	}
	return made
}

func holds(ranges []hourstable.Range, sliceKey uint64) bool {
	for _, one := range ranges {
		if one.First <= sliceKey && sliceKey < one.End {
			return true
		}
	}
	return false
}
