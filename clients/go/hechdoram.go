// Package hechdoram has a store of keys and values in a folder, held by a child process `bwlog
// serve`: one line asked, one line answered.
//
//	store, err := hechdoram.Open("folder", nil)
//	err = store.Put([]byte("key"), []byte("value"))
//	_, err = store.Keep() // durable from here on
//	err = store.Close()
//
// A key has 1 to 128 bytes, a value up to 512, any bytes. Keys stand in the order of their bytes.
// No pair has a key of another length, so a look-up of one finds nothing, and a put of one is
// TooLong. What was put is seen at once, and durable once Keep or Close has answered. Goroutines
// may share a store: a call waits for the one before it.
//
// A folder of tables has maps by their names, with values of up to 16 MiB: OpenTables.
package hechdoram

import (
	"bytes"
	"encoding/hex"
	"errors"
	"fmt"
	"strconv"
	"strings"
)

const (
	MaxKey   = 128
	MaxValue = 512
	// The most records of one step, and the most bytes of a line.
	mostRecords = 4
	mostBytes   = 4096
	// How many requests are sent in one burst.
	burst = 1024
)

// Kind is what kind of thing went wrong. errors.Is finds it in an error.
type Kind string

func (k Kind) Error() string { return string(k) }

const (
	// Refused is a refusal of the store that has no kind here. The store is as it was.
	Refused Kind = "Refused"
	// Full says that there is no room for what is put (refused E5 NoSegment). Deletes, Keep and
	// Clean go.
	Full Kind = "Full"
	// Failed says that a file could not be read or written (refused E6 Device), or that a write failed
	// before (refused E7 Failed). Then nothing more is kept, and reads still answer: Reopen goes on.
	Failed Kind = "Failed"
	// NoTable says that no table has the name (refused E21 NoTable).
	NoTable Kind = "NoTable"
	// TableExists says that a table has the name already (refused E22 Exists).
	TableExists Kind = "TableExists"
	// TooLong says that a key has not 1 to 128 bytes, a value more than 512, or that a group is
	// more than one step takes; of tables, that a name has not 1 to 127 bytes, a key not 1 to 124, a
	// value more than 16 MiB, or that a batch is more than one takes. Nothing was asked.
	TooLong Kind = "TooLong"
	// Ended says that no further request is answered.
	Ended Kind = "Ended"
	// InUse says that another process has the folder.
	InUse Kind = "InUse"
	// Damaged says that bytes of the folder were changed or lost, or are no store.
	Damaged Kind = "Damaged"
)

// Error is what went wrong: its kind, and the program's own sentence.
type Error struct {
	Kind  Kind
	Words string
}

func (e *Error) Error() string { return e.Words }

func (e *Error) Unwrap() error { return e.Kind }

func ended(words string) *Error { return &Error{Ended, words} }

// Pair is a key and its value.
type Pair struct{ Key, Value []byte }

// Change is a key with a value, or with none, nil, if it is deleted.
type Change struct{ Key, Value []byte }

// Options are those of bwlog serve; what is 0 is the program's default.
type Options struct {
	Program string

	Capacity, Segments, MostSegments, M, Frame, Places int
}

// Reopened is what Reopen found: the folder's last frame, and how many changes that had been taken
// are gone. Of tables these are records of the store below: a long value has one for each 512 bytes.
type Reopened struct{ Frame, Lost uint64 }

// Copied is what a backup holds.
type Copied struct{ Frame, Pages, Pairs uint64 }

// Stats are the store's numbers. Failed says that a write failed: Reopen.
type Stats struct {
	History, Durable, Segments, Spares, Pages uint64

	Failed bool
}

// served is what every store has that a child process serves, of pairs or of tables.
type served struct{ child *child }

// Store is the store in a folder.
type Store struct{ served }

// Open opens the store of a folder, which is made if it is missing. The options may be nil.
func Open(folder string, options *Options) (*Store, error) {
	child, err := serve(folder, options, false)
	if err != nil {
		return nil, err
	}
	return &Store{served{child}}, nil
}

// serve begins the program that serves a folder, of tables or of pairs.
func serve(folder string, options *Options, hasTables bool) (*child, error) {
	if options == nil {
		options = &Options{}
	}
	program := options.Program
	if program == "" {
		program = "bwlog"
	}
	words := []string{"serve", "--dir=" + folder}
	if hasTables {
		words = append(words, "--tables")
	}
	numbers := []struct {
		name   string
		number int
	}{
		{"capacity", options.Capacity}, {"segments", options.Segments},
		{"most-segments", options.MostSegments}, {"m", options.M}, {"frame", options.Frame},
		{"places", options.Places},
	}
	for _, given := range numbers {
		if given.number != 0 {
			words = append(words, fmt.Sprintf("--%s=%d", given.name, given.number))
		}
	}
	return begin(program, words, hasTables)
}

// Close keeps what was put, and ends the child. If that is refused the store stays open. A second
// call does nothing.
func (s *served) Close() error {
	if s.child.isClosed() {
		return nil
	}
	if _, err := s.Keep(); err != nil {
		return err
	}
	answer, err := s.ask("quit")
	if err != nil {
		return err
	}
	if answer != "bye" {
		return s.child.noAnswer(answer)
	}
	s.Abandon()
	return nil
}

// Abandon ends the child, and keeps nothing more.
func (s *served) Abandon() { s.child.abandon() }

// Put sets the value of a key.
func (s *Store) Put(key, value []byte) error { return s.PutMany([]Pair{{key, value}}) }

// PutMany puts many pairs, in bursts of 1,024. It is no step: if a pair is refused others of its
// burst are put all the same, and the first refusal is returned.
func (s *Store) PutMany(pairs []Pair) error {
	lines := make([]string, 0, len(pairs))
	for _, pair := range pairs {
		if err := check(pair.Key, pair.Value); err != nil {
			return err
		}
		lines = append(lines, "put "+word(pair.Key)+" "+word(pair.Value))
	}
	_, err := s.burst(lines)
	return err
}

// Delete deletes a key, if it is there.
func (s *Store) Delete(key []byte) error {
	if !isKey(key) {
		return nil
	}
	_, err := s.ask("del " + word(key))
	return err
}

// Group makes one to four changes in one step: whatever happens, all are there or none. More are
// TooLong; so are four of together more than a line holds, 4,096 bytes, in which a byte that is not
// printable takes two.
func (s *Store) Group(changes []Change) error {
	lines, err := groups(changes)
	if err == nil && len(lines) > 1 {
		err = &Error{TooLong, "a group has one to four records, in a line of at most 4096 bytes"}
	}
	if err == nil {
		_, err = s.burst(lines)
	}
	return err
}

// Batch makes many changes in groups, in their order. Up to four records are one step, as of Group;
// of more, whatever stops them, a beginning is there. The first refusal ends the batch there.
func (s *Store) Batch(changes []Change) error {
	lines, err := groups(changes)
	for i := 0; err == nil && i < len(lines); i++ {
		_, err = s.ask(lines[i])
	}
	return err
}

// Get gives the value of a key, or nil if it has none.
func (s *Store) Get(key []byte) ([]byte, error) {
	values, err := s.GetMany([][]byte{key})
	if err != nil {
		return nil, err
	}
	return values[0], nil
}

// GetMany gives the values of many keys, in their order, asked in bursts; nil at a key that has
// none.
func (s *Store) GetMany(keys [][]byte) ([][]byte, error) {
	lines, places := []string{}, []int{}
	for i, key := range keys {
		if isKey(key) {
			lines, places = append(lines, "get "+word(key)), append(places, i)
		}
	}
	answers, err := s.burst(lines)
	if err != nil {
		return nil, err
	}
	values := make([][]byte, len(keys))
	for i, answer := range answers {
		if answer == "none" {
			continue
		}
		value, ok := bytesOf(strings.TrimPrefix(answer, "value "))
		if !ok || !strings.HasPrefix(answer, "value ") {
			return nil, s.child.noAnswer(answer)
		}
		values[places[i]] = value
	}
	return values, nil
}

// AtOrAbove gives the pair with the least key at or above these bytes, or nil if there is none.
func (s *Store) AtOrAbove(key []byte) (*Pair, error) {
	low := lowest(key)
	if low == nil {
		return nil, nil
	}
	return s.near("next", low)
}

// AtOrBelow gives the pair with the greatest key at or below these bytes, or nil.
func (s *Store) AtOrBelow(key []byte) (*Pair, error) {
	if len(key) == 0 {
		return nil, nil
	}
	if len(key) > MaxKey {
		key = key[:MaxKey]
	}
	return s.near("prev", key)
}

// Below gives the pair with the greatest key below these bytes, or nil.
func (s *Store) Below(key []byte) (*Pair, error) {
	if !isKey(key) {
		return s.AtOrBelow(key)
	}
	return s.near("below", key)
}

func (s *Store) near(request string, key []byte) (*Pair, error) {
	answer, err := s.ask(request + " " + word(key))
	if err != nil || answer == "none" {
		return nil, err
	}
	pair, ok := pairOf(strings.TrimPrefix(answer, "pair "))
	if !ok {
		return nil, s.child.noAnswer(answer)
	}
	return pair, nil
}

// firstPairs gives the first pairs at or above a key, so many of them.
func (s *Store) firstPairs(low []byte, most int) ([]Pair, error) {
	answer, err := s.ask("scan " + word(low) + " " + strconv.Itoa(most))
	if err != nil {
		return nil, err
	}
	words := strings.Split(answer, " ")
	if len(words) < 2 || words[0] != "pairs" || words[1] != strconv.Itoa(len(words)-2) {
		return nil, s.child.noAnswer(answer)
	}
	pairs := make([]Pair, len(words)-2)
	for i, text := range words[2:] {
		pair, ok := pairOf(text)
		if !ok {
			return nil, s.child.noAnswer(answer)
		}
		pairs[i] = *pair
	}
	return pairs, nil
}

// Count says how many pairs there are.
func (s *Store) Count() (uint64, error) {
	found, err := s.numbers("count", "count")
	return found[0], err
}

// Keep makes durable what was put: the number of the last frame, or 0 if nothing was new.
func (s *served) Keep() (uint64, error) {
	answer, err := s.ask("flush")
	if err != nil || answer == "no frame" {
		return 0, err
	}
	found, err := s.numbersIn(answer, "frame")
	return found[0], err
}

// Reopen opens the folder once more, in the same child. It is for a store that Failed, and goes on
// from all that is durable. What can still be kept is, before.
func (s *served) Reopen() (Reopened, error) {
	found, err := s.numbers("reopen", "frame", "lost")
	return Reopened{found[0], found[1]}, err
}

// Stats gives the store's numbers.
func (s *served) Stats() (Stats, error) {
	answer, err := s.ask("stats")
	if err != nil {
		return Stats{}, err
	}
	n, err := s.numbersIn(answer, "history", "durable", "segments", "spares", "pages")
	hasFailed := strings.Contains(answer+" ", " failed ")
	return Stats{n[0], n[1], n[2], n[3], n[4], hasFailed}, err
}

// Clean gives up the oldest segment, whose room is free again: how many bytes that won.
func (s *served) Clean() (uint64, error) {
	found, err := s.numbers("clean", "won")
	return found[0], err
}

// Add adds a segment: its number.
func (s *served) Add() (uint64, error) {
	found, err := s.numbers("add", "added")
	return found[0], err
}

// Backup keeps what was put, and copies the store into a new folder.
func (s *served) Backup(to string) (Copied, error) {
	found, err := s.numbers("backup "+word([]byte(to)), "frame", "pages", "pairs")
	return Copied{found[0], found[1], found[2]}, err
}

// ask asks one request.
func (s *served) ask(line string) (string, error) {
	answers, err := s.burst([]string{line})
	if err != nil {
		return "", err
	}
	return answers[0], nil
}

// burst asks many requests. All answers of a burst are read before its first refusal is returned.
func (s *served) burst(lines []string) ([]string, error) {
	var all []string
	for first := true; first || len(lines) > 0; first = false {
		some := lines
		if len(some) > burst {
			some = some[:burst]
		}
		lines = lines[len(some):]
		answers, err := s.child.ask(some)
		if err != nil {
			return nil, err
		}
		for i, answer := range answers {
			if refusal := refusalIn(answer); refusal != nil {
				return nil, refusal
			}
			if isChange(some[i]) && answer != "ok" {
				return nil, s.child.noAnswer(answer)
			}
		}
		all = append(all, answers...)
	}
	return all, nil
}

// isChange says whether a request changes something, so that its only answer is ok.
func isChange(line string) bool {
	for _, name := range []string{"put ", "del ", "group ", "batch ", "create ", "drop "} {
		if strings.HasPrefix(line, name) {
			return true
		}
	}
	return false
}

func (s *served) numbers(line string, names ...string) ([]uint64, error) {
	answer, err := s.ask(line)
	if err != nil {
		return make([]uint64, len(names)), err
	}
	return s.numbersIn(answer, names...)
}

// numbersIn gives the numbers after these words of an answer.
func (s *served) numbersIn(answer string, names ...string) ([]uint64, error) {
	found, words := make([]uint64, len(names)), strings.Split(answer, " ")
	for i, name := range names {
		at := 0
		for at < len(words) && words[at] != name {
			at++
		}
		if at+1 >= len(words) {
			return found, s.child.noAnswer(answer)
		}
		number, err := strconv.ParseUint(words[at+1], 10, 64)
		if err != nil {
			return found, s.child.noAnswer(answer)
		}
		found[i] = number
	}
	return found, nil
}

func isKey(key []byte) bool { return 0 < len(key) && len(key) <= MaxKey }

func check(key, value []byte) error {
	if !isKey(key) {
		return &Error{TooLong, "a key has 1 to 128 bytes"}
	}
	if len(value) > MaxValue {
		return &Error{TooLong, "a value has 0 to 512 bytes"}
	}
	return nil
}

// groups gives the lines of changes, each with as many as one step takes.
func groups(changes []Change) ([]string, error) {
	lines, count := []string{}, mostRecords
	for _, change := range changes {
		if change.Value == nil && !isKey(change.Key) {
			continue // no pair has such a key
		}
		if err := check(change.Key, change.Value); err != nil {
			return nil, err
		}
		op := " del " + word(change.Key)
		if change.Value != nil {
			op = " put " + word(change.Key) + " " + word(change.Value)
		}
		last := len(lines) - 1
		if count == mostRecords || len(lines[last])+len(op) > mostBytes {
			lines, count = append(lines, "group"+op), 1
		} else {
			lines[last], count = lines[last]+op, count+1
		}
	}
	return lines, nil
}

// word gives the word of a line that stands for these bytes.
func word(data []byte) string {
	isPlain := len(data) > 0 && !bytes.HasPrefix(data, []byte("0x"))
	for _, b := range data {
		isPlain = isPlain && '!' <= b && b <= '~'
	}
	if isPlain {
		return string(data)
	}
	return "0x" + hex.EncodeToString(data)
}

// bytesOf gives the bytes that a word of an answer stands for.
func bytesOf(text string) ([]byte, bool) {
	if !strings.HasPrefix(text, "0x") {
		return []byte(text), text != ""
	}
	data, err := hex.DecodeString(text[2:])
	return data, err == nil
}

func pairOf(text string) (*Pair, bool) {
	middle := strings.IndexByte(text, '=')
	if middle < 0 {
		return nil, false
	}
	key, isKey := bytesOf(text[:middle])
	value, isValue := bytesOf(text[middle+1:])
	return &Pair{key, value}, isKey && isValue
}

// refusalIn gives the refusal that an answer says, or nil.
func refusalIn(answer string) error {
	words := strings.Split(answer, " ")
	if words[0] != "refused" && words[0] != "fault" {
		return nil
	}
	kind := Refused
	if words[0] == "refused" && len(words) > 1 {
		switch words[1] {
		case "E2", "E5":
			kind = Full
		case "E6", "E7":
			kind = Failed
		case "E21":
			kind = NoTable
		case "E22":
			kind = TableExists
		}
	}
	return &Error{kind, answer}
}

// endBy gives the error of a program that ended with these words.
func endBy(words string) *Error {
	for _, line := range strings.Split(words, "\n") {
		if strings.HasSuffix(line, ": in use") {
			return &Error{InUse, words}
		}
	}
	for _, text := range []string{": damaged: ", ": missing: ", ": bad bytes: ", " is missing, "} {
		if strings.Contains(words, text) {
			return &Error{Damaged, words}
		}
	}
	if len(words) > 10 && words[:10] == "refused E1" && '2' <= words[10] && words[10] <= '7' {
		return &Error{Damaged, words}
	}
	return ended(words)
}

// IsKind says whether an error is of a kind.
func IsKind(err error, kind Kind) bool { return errors.Is(err, kind) }
