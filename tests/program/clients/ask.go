// Answers requests of the table by the Go client, a line each: ask PROGRAM. The words of pairs are hex in
// both.
package main

import (
	"bufio"
	"bytes"
	"encoding/hex"
	"errors"
	"fmt"
	"io/fs"
	"os"
	"sort"
	"strconv"
	"strings"
	"sync"
	"syscall"

	"hechdoram"
)

const named = 400

var (
	program, folder string
	store           *hechdoram.Store
	tables          *hechdoram.TableStore
)

func bytesOf(text string) []byte {
	data, err := hex.DecodeString(strings.TrimPrefix(text, "0x"))
	if err != nil {
		panic(err)
	}
	return data
}

func word(data []byte) string { return "0x" + hex.EncodeToString(data) }

func told(value []byte) string {
	if value == nil {
		return "none"
	}
	return word(value)
}

func pairWord(pair hechdoram.Pair) string { return word(pair.Key) + "=" + word(pair.Value) }

func namedPair(index int) hechdoram.Pair {
	return hechdoram.Pair{Key: []byte(fmt.Sprintf("n%04d", index)), Value: []byte(strconv.Itoa(index * 7919))}
}

func optionsOf(words []string) *hechdoram.Options {
	options := hechdoram.Options{Program: program}
	for _, given := range words {
		name, value, _ := strings.Cut(given, "=")
		number, _ := strconv.Atoi(value)
		switch name {
		case "program":
			options.Program = value
		case "capacity":
			options.Capacity = number
		case "segments":
			options.Segments = number
		case "most_segments":
			options.MostSegments = number
		}
	}
	return &options
}

func open(folder string, words []string) (*hechdoram.Store, error) {
	return hechdoram.Open(folder, optionsOf(words))
}

func other(words []string) (string, error) {
	second, err := open(words[1], nil)
	if err != nil {
		return "", err
	}
	return "opened", second.Close()
}

func fill() (string, error) {
	for index := 0; ; index++ {
		if err := store.Put([]byte(fmt.Sprintf("fill%05d", index)), bytes.Repeat([]byte("v"), 500)); err != nil {
			return "", err
		}
	}
}

func all(span hechdoram.Span) ([]hechdoram.Pair, error) {
	pairs := []hechdoram.Pair{}
	scan := store.Scan(span)
	for scan.Next() {
		pairs = append(pairs, scan.Pair())
	}
	return pairs, scan.Err()
}

// many keeps so many records over a stop, and walks them both ways.
func many(count int) (string, error) {
	pairs := make([]hechdoram.Pair, count)
	for i := range pairs {
		pairs[i] = hechdoram.Pair{Key: []byte(fmt.Sprintf("key%08d", i*7919%count)), Value: []byte(strconv.Itoa(i))}
	}
	if err := store.PutMany(pairs); err != nil {
		return "", err
	}
	if err := store.Close(); err != nil {
		return "", err
	}
	var err error
	if store, err = open(folder, nil); err != nil {
		return "", err
	}
	sort.Slice(pairs, func(i, j int) bool { return bytes.Compare(pairs[i].Key, pairs[j].Key) < 0 })
	found, err := all(hechdoram.Span{})
	if err != nil || len(found) != count {
		return fmt.Sprintf("%d pairs", len(found)), err
	}
	for i := range found {
		if !bytes.Equal(found[i].Key, pairs[i].Key) || !bytes.Equal(found[i].Value, pairs[i].Value) {
			return "another pair", nil
		}
	}
	scan := store.Scan(hechdoram.Span{IsBack: true})
	for i := 1; i <= 2000 && i <= count && scan.Next(); i++ {
		if !bytes.Equal(scan.Pair().Key, pairs[count-i].Key) {
			return "another pair, backwards", nil
		}
	}
	return fmt.Sprintf("kept %d", len(found)), scan.Err()
}

// threads lets four goroutines ask one store: each has the answers of its own requests.
func threads(count int) (string, error) {
	for i := 0; i < named; i++ {
		pair := namedPair(i)
		if err := store.Put(pair.Key, pair.Value); err != nil {
			return "", err
		}
	}
	var group sync.WaitGroup
	wrong := make([]int, 4)
	for first := range wrong {
		group.Add(1)
		go func(first int) {
			defer group.Done()
			for i := 0; i < count; i++ {
				pair := namedPair((first*named/4 + i) % named)
				if value, err := store.Get(pair.Key); err != nil || !bytes.Equal(value, pair.Value) {
					wrong[first]++
				}
			}
		}(first)
	}
	group.Wait()
	if wrong[0]+wrong[1]+wrong[2]+wrong[3] > 0 {
		return fmt.Sprint("wrong ", wrong), nil
	}
	return "right", nil
}

func changesOf(words []string) []hechdoram.Change {
	changes := []hechdoram.Change{}
	for len(words) > 0 {
		change := hechdoram.Change{Key: bytesOf(words[1])}
		if words[0] == "put" {
			change.Value = bytesOf(words[2])
			words = words[1:]
		}
		changes, words = append(changes, change), words[2:]
	}
	return changes
}

func spanOf(words []string) hechdoram.Span {
	span := hechdoram.Span{}
	for _, given := range words {
		name, value, _ := strings.Cut(given, "=")
		switch name {
		case "prefix":
			span.Prefix = bytesOf(value)
		case "start":
			span.Start = bytesOf(value)
		case "stop":
			span.Stop = bytesOf(value)
		default:
			span.IsBack = true
		}
	}
	return span
}

func near(look func([]byte) (*hechdoram.Pair, error), key string) (string, error) {
	pair, err := look(bytesOf(key))
	if err != nil || pair == nil {
		return "none", err
	}
	return "pair " + pairWord(*pair), nil
}

func lookUp(words []string) (string, error) {
	switch words[0] {
	case "get":
		value, err := store.Get(bytesOf(words[1]))
		if value == nil {
			return "none", err
		}
		return "value " + word(value), err
	case "gets":
		keys := [][]byte{}
		for _, key := range words[1:] {
			keys = append(keys, bytesOf(key))
		}
		values, err := store.GetMany(keys)
		line := "values"
		for _, value := range values {
			line += " " + told(value)
		}
		return line, err
	case "scan":
		pairs, err := all(spanOf(words[1:]))
		line := "pairs"
		for _, pair := range pairs {
			line += " " + pairWord(pair)
		}
		return line, err
	case "next":
		return near(store.AtOrAbove, words[1])
	case "prev":
		return near(store.AtOrBelow, words[1])
	}
	return near(store.Below, words[1])
}

func change(words []string) (string, error) {
	switch words[0] {
	case "put":
		return "ok", store.Put(bytesOf(words[1]), bytesOf(words[2]))
	case "del":
		return "ok", store.Delete(bytesOf(words[1]))
	case "puts":
		pairs := []hechdoram.Pair{}
		for i := 1; i < len(words); i += 2 {
			pairs = append(pairs, hechdoram.Pair{Key: bytesOf(words[i]), Value: bytesOf(words[i+1])})
		}
		return "ok", store.PutMany(pairs)
	case "group":
		return "ok", store.Group(changesOf(words[1:]))
	}
	return "ok", store.Batch(changesOf(words[1:]))
}

func number(words []string) (string, error) {
	switch words[0] {
	case "count":
		count, err := store.Count()
		return fmt.Sprint("count ", count), err
	case "keep":
		frame, err := store.Keep()
		if frame == 0 {
			return "no frame", err
		}
		return fmt.Sprint("frame ", frame), err
	case "reopen":
		found, err := store.Reopen()
		return fmt.Sprintf("reopened frame %d lost %d", found.Frame, found.Lost), err
	case "stats":
		found, err := store.Stats()
		failed := map[bool]int{true: 1}[found.Failed]
		return fmt.Sprintf("stats durable %d failed %d", found.Durable, failed), err
	case "clean":
		won, err := store.Clean()
		return fmt.Sprint("won ", won), err
	case "add":
		segment, err := store.Add()
		return fmt.Sprint("added ", segment), err
	}
	found, err := store.Backup(words[1])
	return fmt.Sprintf("copied frame %d pages %d pairs %d", found.Frame, found.Pages, found.Pairs), err
}

func tableBatchOf(words []string) []hechdoram.TableChange {
	changes := []hechdoram.TableChange{}
	for len(words) > 0 {
		change := hechdoram.TableChange{Table: string(bytesOf(words[1])), Key: bytesOf(words[2])}
		if words[0] == "put" {
			change.Value = bytesOf(words[3])
			words = words[1:]
		}
		changes, words = append(changes, change), words[3:]
	}
	return changes
}

func allOf(table *hechdoram.Table, span hechdoram.Span) ([]hechdoram.Pair, error) {
	pairs := []hechdoram.Pair{}
	scan := table.Scan(span)
	for scan.Next() {
		pairs = append(pairs, scan.Pair())
	}
	return pairs, scan.Err()
}

// tmany puts so many pairs in one batch, each seventh of them longer, and walks over them.
func tmany(name string, count int) (string, error) {
	changes := make([]hechdoram.TableChange, count)
	for i := range changes {
		times := map[bool]int{true: 700, false: 1}[i%7 == 0]
		value := bytes.Repeat([]byte(strconv.Itoa(i)), times)
		changes[i] = hechdoram.TableChange{Table: name, Key: []byte(fmt.Sprintf("key%08d", i)), Value: value}
	}
	if err := tables.Batch(changes); err != nil {
		return "", err
	}
	found, err := allOf(tables.Table(name), hechdoram.Span{Prefix: []byte("key")})
	for i := range found {
		if !bytes.Equal(found[i].Key, changes[i].Key) || !bytes.Equal(found[i].Value, changes[i].Value) {
			return "another pair", nil
		}
	}
	return fmt.Sprintf("walked %d", len(found)), err
}

func kill(path string) (string, error) {
	text, err := os.ReadFile(path)
	if err != nil {
		return "", err
	}
	number, err := strconv.Atoi(strings.TrimSpace(string(text)))
	if err != nil {
		return "", err
	}
	return "killed", syscall.Kill(number, syscall.SIGKILL)
}

// ofTable answers a request about the table of the second word.
func ofTable(words []string) (string, error) {
	table := tables.Table(string(bytesOf(words[1])))
	switch words[0] {
	case "tput":
		return "ok", table.Put(bytesOf(words[2]), bytesOf(words[3]))
	case "tdel":
		return "ok", table.Delete(bytesOf(words[2]))
	case "tget":
		value, err := table.Get(bytesOf(words[2]))
		if value == nil {
			return "none", err
		}
		return "value " + word(value), err
	case "tnext":
		return near(table.AtOrAbove, words[2])
	case "tcount":
		count, err := table.Count()
		return fmt.Sprint("count ", count), err
	case "tscan":
		pairs, err := allOf(table, spanOf(words[2:]))
		line := "pairs"
		for _, pair := range pairs {
			line += " " + pairWord(pair)
		}
		return line, err
	case "create":
		_, err := tables.CreateTable(table.Name())
		return "ok", err
	case "drop":
		return "ok", tables.DropTable(table.Name())
	}
	count, _ := strconv.Atoi(words[2])
	return tmany(table.Name(), count)
}

// ofTables answers a request about tables, of which there are.
func ofTables(words []string) (string, error) {
	switch words[0] {
	case "tables":
		names, err := tables.Tables()
		line := "tables"
		for _, name := range names {
			line += " " + word([]byte(name))
		}
		return line, err
	case "tbatch":
		return "ok", tables.Batch(tableBatchOf(words[1:]))
	case "keep":
		frame, err := tables.Keep()
		return fmt.Sprint("frame ", frame), err
	case "reopen":
		found, err := tables.Reopen()
		return fmt.Sprintf("reopened frame %d lost %d", found.Frame, found.Lost), err
	case "close":
		return "closed", tables.Close()
	case "abandon":
		tables.Abandon()
		return "abandoned", nil
	}
	return ofTable(words)
}

// openTables ends what was open before.
func openTables(words []string) (string, error) {
	if store != nil {
		store.Abandon()
	}
	if tables != nil {
		tables.Abandon()
	}
	next, err := hechdoram.OpenTables(words[1], optionsOf(words[2:]))
	if err == nil {
		tables = next
	}
	return "opened", err
}

func answer(words []string) (string, error) {
	switch words[0] {
	case "topen":
		return openTables(words)
	case "kill":
		return kill(words[1])
	case "open":
		folder = words[1]
		if tables != nil {
			tables.Abandon()
			tables = nil
		}
		if store != nil {
			store.Abandon()
		}
		next, err := open(folder, words[2:])
		if err == nil {
			store = next
		}
		return "opened", err
	case "other":
		return other(words)
	case "fill":
		return fill()
	case "many":
		count, _ := strconv.Atoi(words[1])
		return many(count)
	case "threads":
		count, _ := strconv.Atoi(words[1])
		return threads(count)
	}
	if tables != nil {
		return ofTables(words)
	}
	switch words[0] {
	case "close":
		return "closed", store.Close()
	case "abandon":
		store.Abandon()
		return "abandoned", nil
	case "put", "del", "puts", "group", "batch":
		return change(words)
	case "get", "gets", "scan", "next", "prev", "below":
		return lookUp(words)
	}
	return number(words)
}

func errorLine(err error) string {
	var path *fs.PathError
	var reason syscall.Errno
	if errors.As(err, &path) && errors.As(err, &reason) && reason == syscall.ENOENT {
		return "error System No such file or directory"
	}
	var told *hechdoram.Error
	if errors.As(err, &told) && hechdoram.IsKind(err, told.Kind) {
		return fmt.Sprintf("error %s %s", told.Kind, told.Words)
	}
	return "error System " + err.Error()
}

func main() {
	program = os.Args[1]
	lines := bufio.NewScanner(os.Stdin)
	lines.Buffer(nil, 1<<24)
	for lines.Scan() {
		line, err := answer(strings.Fields(lines.Text()))
		if err != nil {
			line = errorLine(err)
		}
		fmt.Println(line)
	}
}
