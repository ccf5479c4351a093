package vyrdlog

import (
	"fmt"
	"math"
	"path/filepath"
	"runtime"
	"strconv"
	"strings"
	"sync/atomic"
)

const (
	lineBytes    = 64  // the most of a line, without its line feed
	ownLineBytes = 200 // the same in a log of version 3
)

// Lines is the lines of one step. They stand in the log one after the other. A number that a log
// can't hold panics, as does a line that would have more than 64 bytes, or in version 3 more than
// 200; that line isn't written. All else is for `vyrd check` to judge.
type Lines struct {
	text   []byte
	caller int
	most   int           // bytes of a line
	inCall []atomic.Bool // the log's
}

// Call is `call METHOD ARGUMENTS`: arguments are below 2^32. In the step of an action whose outcome
// says which method it was, or its arguments, call and return may stand side by side, and lines of
// several calls too.
func (l *Lines) Call(method string, arguments ...uint64) {
	for _, argument := range arguments {
		within("an argument", argument, math.MaxUint32)
	}
	l.line("call "+method, arguments...)
}

// Returns is `return REPLY`: in version 3 a reply is below 2^64 - 1. For one that is a bool there is
// [Bool].
func (l *Lines) Returns(reply uint64) {
	if l.most == ownLineBytes {
		within("a reply", reply, math.MaxUint64-1)
	}
	l.line("return", reply)
}

// Write is `write WORD VALUE`: the word is one of the subject's, and the value below 2^63.
func (l *Lines) Write(word uint32, value uint64) {
	within("a value", value, math.MaxInt64)
	l.line("write", uint64(word), value)
}

// Commit is `commit`: the operation takes effect here.
func (l *Lines) Commit() { l.line("commit") }

// Open is `open`: writes that take effect together begin.
func (l *Lines) Open() { l.line("open") }

// Close is `close`: they end.
func (l *Lines) Close() { l.line("close") }

// CloseCommit is `close commit`: they end, and the operation takes effect with them.
func (l *Lines) CloseCommit() { l.line("close commit") }

// Observed is an observer whole, its call and its return side by side: it is judged at this one
// place.
func (l *Lines) Observed(reply uint64, method string, arguments ...uint64) {
	l.Call(method, arguments...)
	l.Returns(reply)
}

// Note is `# WORDS`, in a log of version 3: it says nothing to `vyrd check`. It panics in a log of
// another version, and where the words have a line feed.
func (l *Lines) Note(words string) {
	if l.most != ownLineBytes {
		panic("notes are of version 3")
	}
	if strings.Contains(words, "\n") {
		panic("a note has one line")
	}
	begin := len(l.text)
	l.text = append(l.text, "# "+words...)
	l.endLine(begin)
}

// Here is a note of the place in the source that calls it, as `# queue.go:61`.
func (l *Lines) Here() {
	_, file, line, _ := runtime.Caller(1)
	l.Note(filepath.Base(file) + ":" + strconv.Itoa(line))
}

// Entry is an entry as it is, without the caller's number: for a form that this package doesn't
// know.
func (l *Lines) Entry(words string) { l.line(words) }

// Helping adds the lines of `body` as those of another caller, whose operation this step completes.
// `caller` is its number.
func (l *Lines) Helping(caller int, body func(*Lines)) {
	own := l.caller
	l.caller = caller
	defer func() { l.caller = own }()
	body(l)
}

func within(what string, number, most uint64) {
	if number > most {
		panic(fmt.Sprintf("%s is from 0 to %d, and not %d", what, most, number))
	}
}

func (l *Lines) line(words string, numbers ...uint64) {
	begin := len(l.text)
	l.text = strconv.AppendInt(l.text, int64(l.caller), 10)
	l.text = append(l.text, ' ')
	l.text = append(l.text, words...)
	for _, number := range numbers {
		l.text = append(l.text, ' ')
		l.text = strconv.AppendUint(l.text, number, 10)
	}
	l.endLine(begin)
	begins := strings.HasPrefix(words, "call ")
	if (begins || strings.HasPrefix(words, "return")) && uint(l.caller) < uint(len(l.inCall)) {
		l.inCall[l.caller].Store(begins)
	}
}

func (l *Lines) endLine(begin int) {
	if len(l.text)-begin > l.most {
		line := string(l.text[begin:])
		l.text = l.text[:begin]
		panic(fmt.Sprintf("a line of a log has more than %d bytes: %s", l.most, line))
	}
	l.text = append(l.text, '\n')
}
