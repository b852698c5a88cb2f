package hechdoram

import (
	"bufio"
	"errors"
	"fmt"
	"io"
	"os/exec"
	"strconv"
	"strings"
	"sync"
)

const (
	left   = "a call has no answer: it was left before that was read, or goes on"
	closed = "the store was closed"
	noLine = "an answer that is no line"
	// No answer is longer: 1,024 pairs in hex have fewer bytes; of tables 1 MiB of pairs and one more.
	longest         = 1 << 21
	longestOfTables = 1 << 26
)

// child is a program that answers: one exchange goes on at a time.
type child struct {
	lock    sync.Mutex
	process *exec.Cmd
	input   io.WriteCloser
	output  *bufio.Reader
	errors  io.ReadCloser
	why     *Error // why nothing is asked: from before a request until its answer, and from the end on
	isOver  bool   // whether the process was waited for
	longest int    // how many bytes an answer has at most
}

// begin begins a program, which may serve tables, and reads its first answer.
func begin(program string, words []string, hasTables bool) (*child, error) {
	process := exec.Command(program, words...)
	input, err := process.StdinPipe()
	if err != nil {
		return nil, err
	}
	output, err := process.StdoutPipe()
	if err != nil {
		return nil, err
	}
	errors, err := process.StderrPipe()
	if err != nil {
		return nil, err
	}
	if err := process.Start(); err != nil {
		return nil, err
	}
	c := &child{process: process, input: input, errors: errors, longest: longest}
	if hasTables {
		c.longest = longestOfTables
	}
	c.output = bufio.NewReaderSize(output, 1<<16)
	answer, err := c.line()
	if err == nil {
		err = c.greeted(answer, hasTables)
	}
	if err != nil {
		c.abandon()
		return nil, err
	}
	return c, nil
}

// greeted refuses a program of another protocol: the first answer is `ready frame N protocol 1`,
// maybe with more after it; if tables are served, the word `tables`.
func (c *child) greeted(answer string, hasTables bool) error {
	words := strings.Split(answer, " ")
	if words[0] == "refused" {
		if told := c.lastWords(); told != "" {
			answer = told
		}
		return endBy(answer)
	}
	isReady := len(words) >= 5 && words[0] == "ready" && words[1] == "frame"
	if !isReady || words[3] != "protocol" || words[4] != "1" {
		return ended("no protocol 1: " + answer)
	}
	if hasTables && !strings.Contains(" "+strings.Join(words[5:], " ")+" ", " tables ") {
		return ended("no tables: " + answer)
	}
	return nil
}

// ask gives the answers to these requests, one each, refusals among them. They are read while the
// requests are written: neither pipe fills up for good.
func (c *child) ask(lines []string) ([]string, error) {
	c.lock.Lock()
	defer c.lock.Unlock()
	if c.why != nil {
		return nil, c.why
	}
	if len(lines) == 0 {
		return nil, nil
	}
	c.why = ended(left)
	go io.WriteString(c.input, strings.Join(lines, "\n")+"\n") // if it fails, the answers end
	answers := make([]string, 0, len(lines))
	for range lines {
		answer, err := c.line()
		if err != nil {
			c.process.Process.Kill() // nobody reads the others: so whoever writes for them ends
			return nil, c.end(err)
		}
		answers = append(answers, answer)
	}
	if c.output.Buffered() > 0 {
		return nil, c.end(ended("an answer that nobody asked for"))
	}
	c.why = nil
	return answers, nil
}

// end notes why nothing is asked any more.
func (c *child) end(err error) error {
	var told *Error
	if !errors.As(err, &told) {
		told = ended(err.Error())
	}
	c.why = told
	return told
}

// noAnswer is the error of an answer that is none to its request.
func (c *child) noAnswer(answer string) error {
	c.lock.Lock()
	defer c.lock.Unlock()
	return c.end(ended(fmt.Sprintf("no answer to a request: %.200s", answer)))
}

// line reads the next answer. If there is none, the child's own words say why.
func (c *child) line() (string, error) {
	var text []byte
	for {
		part, err := c.output.ReadSlice('\n')
		text = append(text, part...)
		if len(text) > c.longest {
			return "", ended(noLine)
		}
		if err == nil {
			break
		}
		if err != bufio.ErrBufferFull {
			return "", c.hasEnded()
		}
	}
	text = text[:len(text)-1]
	for _, b := range text {
		if b < ' ' || b > '~' {
			return "", ended(noLine)
		}
	}
	return string(text), nil
}

// hasEnded is the error of a child that has ended.
func (c *child) hasEnded() error {
	words := c.lastWords()
	c.process.Wait()
	c.isOver = true
	if words == "" {
		words = "bwlog ended with status " + strconv.Itoa(c.process.ProcessState.ExitCode())
	}
	return endBy(words)
}

// lastWords is what a child that ends has written on its standard error.
func (c *child) lastWords() string {
	words, _ := io.ReadAll(c.errors)
	return strings.TrimSpace(string(words))
}

func (c *child) isClosed() bool {
	c.lock.Lock()
	defer c.lock.Unlock()
	return c.why != nil && c.why.Words == closed
}

// abandon ends the child, which flushes nothing.
func (c *child) abandon() {
	c.lock.Lock()
	defer c.lock.Unlock()
	c.why = ended(closed)
	c.input.Close()
	if !c.isOver {
		c.isOver = true
		io.Copy(io.Discard, c.output) // a child that still answers ends after that
		c.process.Wait()
	}
}
