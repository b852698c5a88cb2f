package hechdoram

import "bytes"

// How many pairs a walk asks for at first, and at most.
const (
	firstPairs = 8
	mostPairs  = 512
)

// Span says which pairs a walk has: those whose key begins with a prefix, is not below a start, and
// is below a stop, the greatest first if IsBack. Without a start or a stop that is nil.
type Span struct {
	Prefix, Start, Stop []byte
	IsBack              bool
}

// Scan is a walk over the pairs of a store:
//
//	scan := store.Scan(hechdoram.Span{Prefix: []byte("lib/")})
//	for scan.Next() {
//		use(scan.Pair())
//	}
//	err := scan.Err()
//
// It asks for many pairs at a time, and for one at a time if it goes back.
type Scan struct {
	store     *Store
	low, high []byte // keys at or above low, and below high, unless that is nil; none if low is nil
	isBack    bool
	pairs     []Pair
	most      int
	isLast    bool
	pair      *Pair
	err       error
}

// Scan begins a walk.
func (s *Store) Scan(span Span) *Scan {
	low, high := span.Prefix, afterAllOf(span.Prefix)
	if span.Start != nil && bytes.Compare(span.Start, low) > 0 {
		low = span.Start
	}
	if span.Stop != nil && (high == nil || bytes.Compare(span.Stop, high) < 0) {
		high = span.Stop
	}
	return &Scan{store: s, low: lowest(low), high: high, isBack: span.IsBack, most: firstPairs}
}

// Next goes to the next pair, and says whether there is one.
func (w *Scan) Next() bool {
	w.pair = nil
	if w.low == nil {
		return false
	}
	var pair *Pair
	if w.isBack {
		pair, w.err = w.last()
	} else {
		pair, w.err = w.first()
	}
	isMet := w.err == nil && pair != nil && bytes.Compare(pair.Key, w.low) >= 0 &&
		(w.high == nil || bytes.Compare(pair.Key, w.high) < 0)
	if !isMet {
		w.low = nil
		return false
	}
	if w.isBack {
		w.high = pair.Key
	} else {
		w.low = After(pair.Key)
	}
	w.pair = pair
	return true
}

// Pair gives the pair that Next went to.
func (w *Scan) Pair() Pair { return *w.pair }

// Err gives what ended the walk, or nil at its end.
func (w *Scan) Err() error { return w.err }

func (w *Scan) last() (*Pair, error) {
	if w.high == nil {
		return w.store.AtOrBelow(bytes.Repeat([]byte{0xff}, MaxKey))
	}
	return w.store.Below(w.high)
}

func (w *Scan) first() (*Pair, error) {
	if len(w.pairs) == 0 && !w.isLast {
		pairs, err := w.store.firstPairs(w.low, w.most)
		if err != nil {
			return nil, err
		}
		w.pairs, w.isLast = pairs, len(pairs) < w.most
		if w.most < mostPairs {
			w.most *= 2
		}
	}
	if len(w.pairs) == 0 {
		return nil, nil
	}
	pair := &w.pairs[0]
	w.pairs = w.pairs[1:]
	return pair, nil
}

// After gives the least key above this one, or nil above the greatest.
func After(key []byte) []byte {
	if len(key) < MaxKey {
		return append(append([]byte{}, key...), 0)
	}
	return afterAllOf(key[:MaxKey])
}

// afterAllOf gives the least bytes above all that begin with these, or nil if there are none.
func afterAllOf(prefix []byte) []byte {
	end := len(prefix)
	for end > 0 && prefix[end-1] == 0xff {
		end--
	}
	if end == 0 {
		return nil
	}
	next := append([]byte{}, prefix[:end]...)
	next[end-1]++
	return next
}

// lowest gives the least key at or above these bytes, which may be fewer or more than a key has.
func lowest(low []byte) []byte {
	if len(low) == 0 {
		return []byte{0}
	}
	if len(low) > MaxKey {
		return After(low[:MaxKey])
	}
	return low
}
