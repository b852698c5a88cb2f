package hechdoram

import (
	"bytes"
	"strconv"
	"strings"
)

const (
	// MaxName, MaxTableKey and MaxTableValue are the most bytes of a table's name, of a key of a table,
	// and of a value of one.
	MaxName       = 127
	MaxTableKey   = 124
	MaxTableValue = 16777216
	// The most changes of a batch, and the most bytes of their keys and values together.
	mostChanges = 65536
	mostBatch   = 67108864
	// How many names one answer has.
	mostNames = 1024
)

// TableChange is a key of a table with a value, or with none, nil, if it is deleted.
type TableChange struct {
	Table      string
	Key, Value []byte
}

// TableStore has the tables of a folder, by their names:
//
//	store, err := hechdoram.OpenTables("folder", nil)
//	users, err := store.CreateTable("users")
//	err = users.Put([]byte("1"), value) // up to 16 MiB
//	_, err = store.Keep()               // durable from here on
//
// What was put is seen at once, and durable once Keep or Close has answered. Each call is one step:
// whatever stops it, all of it is there or nothing. Goroutines may share a store: a call waits for
// the one before it.
type TableStore struct{ served }

// OpenTables opens the tables of a folder, which is made if it is missing. The options may be nil. A
// folder whose pairs are no tables is refused, as Ended with the program's words.
func OpenTables(folder string, options *Options) (*TableStore, error) {
	child, err := serve(folder, options, true)
	if err != nil {
		return nil, err
	}
	return &TableStore{served{child}}, nil
}

// Table gives the table of this name. Nothing is asked: its calls are NoTable if there is none.
func (s *TableStore) Table(name string) *Table { return &Table{s, name} }

// Tables gives the names of all tables, in the order of their bytes.
func (s *TableStore) Tables() ([]string, error) {
	names, err := s.names("tables")
	for most := len(names); err == nil && most == mostNames; {
		var more []string
		more, err = s.names("tables " + word([]byte(names[len(names)-1])))
		names, most = append(names, more...), len(more)
	}
	return names, err
}

func (s *TableStore) names(line string) ([]string, error) {
	answer, err := s.ask(line)
	if err != nil {
		return nil, err
	}
	words := strings.Split(answer, " ")
	if len(words) < 2 || words[0] != "tables" || words[1] != strconv.Itoa(len(words)-2) {
		return nil, s.child.noAnswer(answer)
	}
	names := make([]string, len(words)-2)
	for i, text := range words[2:] {
		name, ok := bytesOf(text)
		if !ok {
			return nil, s.child.noAnswer(answer)
		}
		names[i] = string(name)
	}
	return names, nil
}

// CreateTable makes a table with no key; TableExists if there is one of this name.
func (s *TableStore) CreateTable(name string) (*Table, error) {
	err := checkName(name)
	if err == nil {
		_, err = s.ask("create " + word([]byte(name)))
	}
	if err != nil {
		return nil, err
	}
	return s.Table(name), nil
}

// DropTable drops a table with all its keys, in one step; NoTable if there is none of this name.
func (s *TableStore) DropTable(name string) error {
	err := checkName(name)
	if err == nil {
		_, err = s.ask("drop " + word([]byte(name)))
	}
	return err
}

// Batch makes up to 65,536 changes, in any tables, in one step: whatever stops it, all are there or
// none. A later change of a key takes the place of an earlier one. More are TooLong, and so are keys
// and values of more than 64 MiB together.
func (s *TableStore) Batch(changes []TableChange) error {
	lines, length := []string{""}, 0
	for _, change := range changes {
		if err := checkChange(change); err != nil {
			return err
		}
		if !isTableKey(change.Key) {
			continue // no table has such a key
		}
		length += len(change.Key) + len(change.Value)
		lines = append(lines, changeLine(change))
	}
	if len(lines)-1 > mostChanges {
		return &Error{TooLong, "a batch has at most 65536 changes"}
	}
	if length > mostBatch {
		return &Error{TooLong, "the keys and values of a batch have at most 67108864 bytes"}
	}
	if len(lines) == 1 {
		return nil
	}
	lines[0] = "batch " + strconv.Itoa(len(lines)-1)
	_, err := s.ask(strings.Join(lines, "\n"))
	return err
}

// Table is a table of a folder: a map in the order of the keys' bytes. A key has 1 to 124 bytes, a
// value up to 16 MiB. No table has a key of another length, so a look-up of one finds nothing, and a
// put of one is TooLong. If no table has the name, each call is NoTable.
type Table struct {
	store *TableStore
	name  string
}

// Name gives the table's name.
func (t *Table) Name() string { return t.name }

// Put sets the value of a key, in one step: after whatever stops it the key has the old value or the
// new one.
func (t *Table) Put(key, value []byte) error {
	if value == nil {
		value = []byte{}
	}
	return t.change(TableChange{t.name, key, value})
}

// Delete deletes a key, if it is there.
func (t *Table) Delete(key []byte) error { return t.change(TableChange{t.name, key, nil}) }

func (t *Table) change(change TableChange) error {
	err := checkChange(change)
	if err == nil && isTableKey(change.Key) {
		_, err = t.store.ask(changeLine(change))
	}
	return err
}

// ask asks a request of this table.
func (t *Table) ask(name string, words ...string) (string, error) {
	if err := checkName(t.name); err != nil {
		return "", err
	}
	return t.store.ask(strings.Join(append([]string{name, word([]byte(t.name))}, words...), " "))
}

// Get gives the value of a key, or nil if it has none.
func (t *Table) Get(key []byte) ([]byte, error) {
	if !isTableKey(key) {
		return nil, nil
	}
	answer, err := t.ask("get", word(key))
	if err != nil || answer == "none" {
		return nil, err
	}
	value, ok := bytesOf(strings.TrimPrefix(answer, "value "))
	if !ok || !strings.HasPrefix(answer, "value ") {
		return nil, t.store.child.noAnswer(answer)
	}
	return value, nil
}

// AtOrAbove gives the pair with the least key at or above these bytes, or nil if there is none.
func (t *Table) AtOrAbove(key []byte) (*Pair, error) {
	scan := t.Scan(Span{Start: key})
	scan.most = 1
	if scan.Next() {
		pair := scan.Pair()
		return &pair, nil
	}
	return nil, scan.Err()
}

// Count says how many keys the table has. All its rows are looked at, and none of its long values.
func (t *Table) Count() (uint64, error) {
	answer, err := t.ask("count")
	if err != nil {
		return 0, err
	}
	found, err := t.store.numbersIn(answer, "count")
	return found[0], err
}

// rows gives the pairs of an answer, and whether its length ended it.
func (t *Table) rows(answer string) ([]Pair, bool, error) {
	front := strings.TrimSuffix(answer, " more")
	words := strings.Split(front, " ")
	if len(words) < 2 || words[0] != "pairs" || words[1] != strconv.Itoa(len(words)-2) {
		return nil, false, t.store.child.noAnswer(answer)
	}
	pairs := make([]Pair, len(words)-2)
	for i, text := range words[2:] {
		pair, ok := pairOf(text)
		if !ok {
			return nil, false, t.store.child.noAnswer(answer)
		}
		pairs[i] = *pair
	}
	return pairs, front != answer, nil
}

// TableScan is a walk over the pairs of a table, in the order of their keys, as Scan is one over a
// store. It asks for up to 512 pairs at a time, or as many as have 1 MiB.
type TableScan struct {
	table   *Table
	request string // where the next answer begins: scan at the key, above it
	key     []byte
	high    []byte // keys below high, unless that is nil
	pairs   []Pair
	most    int
	isOver  bool
	pair    Pair
	err     error
}

// Scan begins a walk. It goes no other way: IsBack of the span is not heeded.
func (t *Table) Scan(span Span) *TableScan {
	low, high := span.Prefix, afterAllOf(span.Prefix)
	if span.Start != nil && bytes.Compare(span.Start, low) > 0 {
		low = span.Start
	}
	if span.Stop != nil && (high == nil || bytes.Compare(span.Stop, high) < 0) {
		high = span.Stop
	}
	w := &TableScan{table: t, request: "scan", key: low, high: high, most: firstPairs}
	if len(low) > MaxTableKey {
		// A key above the longest that a table may have stands above its first bytes.
		w.request, w.key = "above", low[:MaxTableKey]
	}
	if len(low) == 0 {
		w.key = []byte{0}
	}
	return w
}

// fill asks for the next pairs.
func (w *TableScan) fill() {
	answer, err := w.table.ask(w.request, word(w.key), strconv.Itoa(w.most))
	if err != nil {
		w.err, w.isOver = err, true
		return
	}
	pairs, isCut, err := w.table.rows(answer)
	w.pairs, w.err, w.isOver = pairs, err, !isCut && len(pairs) < w.most
	if len(pairs) > 0 {
		w.request, w.key = "above", pairs[len(pairs)-1].Key
	}
	if w.most < mostPairs {
		w.most *= 2
	}
}

// Next goes to the next pair, and says whether there is one.
func (w *TableScan) Next() bool {
	if len(w.pairs) == 0 && !w.isOver {
		w.fill()
	}
	if w.err != nil || len(w.pairs) == 0 {
		return false
	}
	w.pair, w.pairs = w.pairs[0], w.pairs[1:]
	if w.high != nil && bytes.Compare(w.pair.Key, w.high) >= 0 {
		w.pairs, w.isOver = nil, true
		return false
	}
	return true
}

// Pair gives the pair that Next went to.
func (w *TableScan) Pair() Pair { return w.pair }

// Err gives what ended the walk, or nil at its end.
func (w *TableScan) Err() error { return w.err }

func isTableKey(key []byte) bool { return 0 < len(key) && len(key) <= MaxTableKey }

func checkName(name string) error {
	if 0 < len(name) && len(name) <= MaxName {
		return nil
	}
	return &Error{TooLong, "a name has 1 to 127 bytes"}
}

// checkChange refuses what no table takes. A deletion of what can be no key is nothing.
func checkChange(change TableChange) error {
	if err := checkName(change.Table); err != nil || change.Value == nil {
		return err
	}
	if !isTableKey(change.Key) {
		return &Error{TooLong, "a key of a table has 1 to 124 bytes"}
	}
	if len(change.Value) > MaxTableValue {
		return &Error{TooLong, "a value of a table has 0 to 16777216 bytes"}
	}
	return nil
}

// changeLine gives the line of a change.
func changeLine(change TableChange) string {
	front := word([]byte(change.Table)) + " " + word(change.Key)
	if change.Value == nil {
		return "del " + front
	}
	return "put " + front + " " + word(change.Value)
}
