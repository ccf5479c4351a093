package vyrdlog

import (
	"bytes"
	"errors"
	"fmt"
	"os"
	"path/filepath"
	"runtime"
	"strings"
	"sync"
	"testing"
)

// Bytes that are written from several goroutines.
type written struct {
	lock sync.Mutex
	text bytes.Buffer
}

func (w *written) Write(data []byte) (int, error) {
	w.lock.Lock()
	defer w.lock.Unlock()
	return w.text.Write(data)
}

func (w *written) String() string {
	w.lock.Lock()
	defer w.lock.Unlock()
	return w.text.String()
}

// A device that is full.
type fullDevice struct{}

func (fullDevice) Write([]byte) (int, error) { return 0, errors.New("full") }

func newLog(t *testing.T, header Header, options Options) (*Log, *written) {
	t.Helper()
	to := &written{}
	log, err := New(header, to, options)
	if err != nil {
		t.Fatal(err)
	}
	return log, to
}

func callerOf(t *testing.T, log *Log) *Caller {
	t.Helper()
	caller, err := log.Caller()
	if err != nil {
		t.Fatal(err)
	}
	return caller
}

func same(t *testing.T, got, wanted any) {
	t.Helper()
	if got != wanted {
		t.Errorf("got: %v\nwanted: %v", got, wanted)
	}
}

func panics(t *testing.T, sentence string, action func()) {
	t.Helper()
	defer func() {
		t.Helper()
		same(t, recover(), sentence)
	}()
	action()
}

func TestEachLine(t *testing.T) {
	log, to := newLog(t, NewHeader(1, "tree", 2, 3), Options{Unwatched: true})
	first, second := callerOf(t, log), callerOf(t, log)
	first.Call("insert", 4294967295, 0)
	first.Step(func(lines *Lines) {
		lines.Open()
		lines.Write(4, 1<<62)
		lines.Close()
		lines.CloseCommit()
		lines.Entry("commit")
	})
	first.Commit()
	first.Returns(1<<64 - 1)
	second.Step(func(lines *Lines) {
		lines.Observed(1, "lookup", 7)
		lines.Call("delete", 7)
		lines.Helping(2, (*Lines).Commit)
		lines.Commit()
		lines.Returns(Bool(false))
	})
	if err := log.Finish(); err != nil {
		t.Fatal(err)
	}
	same(t, to.String(), "vyrd 1 tree 2 3\n0 call insert 4294967295 0\n0 open\n"+
		"0 write 4 4611686018427387904\n0 close\n0 close commit\n0 commit\n0 commit\n"+
		"0 return 18446744073709551615\n1 call lookup 7\n1 return 1\n1 call delete 7\n2 commit\n"+
		"1 commit\n1 return 0\nend\n")
}

func TestHeaders(t *testing.T) {
	start := map[uint32]uint64{3: 0, 1: 5, 0: 2}
	lines, err := StartHeader("multiset", 1, 1, start).Lines()
	same(t, lines, "vyrd 2 multiset 1 1\nstart 0 2\nstart 1 5\n")
	same(t, err, nil)
	own := TextHeader("vyrd 3 own 0 100\nlog", 100)
	lines, err = own.Lines()
	same(t, lines, "vyrd 3 own 0 100\nlog\n")
	same(t, err, nil)
	same(t, own.Callers(), 100)
	for _, refused := range []struct {
		header   Header
		sentence string
	}{
		{NewHeader(3, "tree", 1, 1), "the version of a log is 1 or 2"},
		{NewHeader(1, "queue", 1, 1), "no subject of a log: queue"},
		{NewHeader(1, "tree", 0, 1), "the size of a log is from 1 to 1,024"},
		{NewHeader(1, "tree", 1025, 1), "the size of a log is from 1 to 1,024"},
		{NewHeader(1, "tree", 1, 0), "the callers of a log are from 1 to 64"},
		{NewHeader(1, "tree", 1, 65), "the callers of a log are from 1 to 64"},
		{TextHeader("", 1), "a log has a header"},
		{TextHeader("vyrd 3 own 0 0", 0), "the callers of a log are from 1 on"},
	} {
		_, err := New(refused.header, &written{}, Options{})
		same(t, fmt.Sprint(err), refused.sentence)
	}
}

const specification = "vyrd 3 own 2 200\nlist all\nmethod take x\n  answer 0\n" +
	"  allow (reply == 1)\n    drop first all\nlog\n"

func refuses(t *testing.T, sentence string, header Header) {
	t.Helper()
	_, err := New(header, &written{}, Options{})
	if err == nil || !strings.HasPrefix(err.Error(), sentence) {
		t.Errorf("got: %v\nwanted: %s", err, sentence)
	}
}

func TestOwnHeaders(t *testing.T) {
	path := filepath.Join(t.TempDir(), "unit.spec")
	refuses(t, "open "+path+": ", OwnHeaderFile(path))
	if err := os.WriteFile(path, []byte(specification), 0o666); err != nil {
		t.Fatal(err)
	}
	cut := OwnHeader(strings.TrimSuffix(specification, "\n"))
	for _, header := range []Header{OwnHeader(specification), cut, OwnHeaderFile(path)} {
		same(t, header.Callers(), 200)
		lines, err := header.WithStart(map[uint32]uint64{1: 7, 0: 5, 2: 0}).Lines()
		same(t, lines, specification+"start 0 5\nstart 1 7\n")
		same(t, err, nil)
	}
	header := NewHeader(1, "tree", 1, 1).WithStart(map[uint32]uint64{1: 7})
	refuses(t, "words at the start are of versions 2 and 3", header)
	for _, first := range []string{
		"", "vyrd 2 own 0 1", "vyrd 3 own 0", "vyrd 3 own 0 0", "vyrd 3 own 0 257",
		"vyrd 3 own 65537 1", "vyrd 3 own 00 1", "vyrd 3 own 0 1 ", "vyrd 3 own -1 1",
		"vyrd 3 own 99999999999999999999 1", "\nvyrd 3 own 0 1",
	} {
		refuses(t, "a specification begins with the line `vyrd 3 own WORDS CALLERS`, with up to "+
			"65,536 words and from 1 to 256 callers", OwnHeader(first+"\nlog\n"))
	}
	for _, rest := range []string{
		"", "\nmethod x", "\nlog\n\n", "\n log", "\nlog\nend",
	} {
		header := OwnHeader("vyrd 3 own 65536 256" + rest)
		refuses(t, "a specification ends with the line `log`", header)
	}
	for _, rest := range []string{"\r\nlog\r\n", "\r\nlog\n", "\nlog\r\n"} {
		refuses(t, "a line of the specification ends with a carriage return: lines end with a line "+
			"feed alone", OwnHeader("vyrd 3 own 65536 256"+rest))
	}
}

// Lines of 200 bytes, notes, a call in the step that decides it, and one that commits nothing.
func TestOwnLines(t *testing.T) {
	log, to := newLog(t, OwnHeader(specification), Options{Unwatched: true})
	caller := callerOf(t, log)
	most, name, place := strings.Repeat("x", 198), strings.Repeat("x", 41), 0
	caller.Step(func(lines *Lines) {
		lines.Note("all at once")
		_, _, place, _ = runtime.Caller(0)
		lines.Here()
		lines.Note(most)
		lines.Call("take", 5)
		lines.Commit()
	})
	caller.Returns(1)
	caller.Call(name, 4294967295, 4294967295, 4294967295)
	caller.Returns(0)
	caller.Step(func(lines *Lines) {
		panics(t, "a line of a log has more than 200 bytes: # "+most+"x", func() { lines.Note(most + "x") })
		panics(t, "a note has one line", func() { lines.Note("two\nlines") })
	})
	if err := log.Finish(); err != nil {
		t.Fatal(err)
	}
	same(t, to.String(), specification+fmt.Sprintf("# all at once\n# log_test.go:%d\n# %s\n", place+1, most)+
		"0 call take 5\n0 commit\n0 return 1\n0 call "+name+" 4294967295 4294967295 4294967295\n"+
		"0 return 0\nend\n")
	log, _ = newLog(t, NewHeader(2, "tree", 1, 1), Options{Unwatched: true})
	panics(t, "notes are of version 3", func() { callerOf(t, log).Step((*Lines).Here) })
}

func TestANumberIsHandedOutAndGivenBack(t *testing.T) {
	log, _ := newLog(t, NewHeader(1, "tree", 1, 2), Options{Unwatched: true})
	first, second := callerOf(t, log), callerOf(t, log)
	_, err := log.Caller()
	same(t, fmt.Sprint(err), "no caller is free: all 2 of the header are handed out")
	first.GiveBack()
	first.GiveBack()
	panics(t, "a step of a caller that is given back", first.Commit)
	same(t, callerOf(t, log).Number(), 0)
	same(t, second.Number(), 1)
	_, err = log.Caller()
	same(t, fmt.Sprint(err), "no caller is free: all 2 of the header are handed out")
}

// Its number isn't another goroutine's, whose call would then stand inside its own.
func TestAHandleThatIsGivenBackInsideACall(t *testing.T) {
	log, _ := newLog(t, NewHeader(1, "tree", 1, 2), Options{Unwatched: true})
	first, second := callerOf(t, log), callerOf(t, log)
	first.Call("insert", 5)
	first.GiveBack()
	first.GiveBack()
	refused := "no caller is free: all 2 of the header are handed out (given back inside a call: %d)"
	_, err := log.Caller()
	same(t, fmt.Sprint(err), fmt.Sprintf(refused, 1))
	second.Call("insert", 5)
	second.Step(func(lines *Lines) { lines.Entry("return 0") })
	second.GiveBack()
	third := callerOf(t, log)
	same(t, third.Number(), 1)
	third.Call("delete", 5)
	third.Step(func(lines *Lines) { lines.Helping(0, func(lines *Lines) { lines.Returns(1) }) })
	third.GiveBack()
	_, err = log.Caller()
	same(t, fmt.Sprint(err), fmt.Sprintf(refused, 2))
}

func TestWhatPanicsKeepsTheLinesBeforeIt(t *testing.T) {
	log, to := newLog(t, NewHeader(1, "tree", 1, 2), Options{Unwatched: true})
	caller := callerOf(t, log)
	longest := strings.Repeat("x", 64-len("0 call "))
	caller.Call(longest)
	panics(t, "a line of a log has more than 64 bytes: 1 call "+longest+" 1", func() {
		caller.Step(func(lines *Lines) {
			lines.Helping(1, func(lines *Lines) {
				lines.Commit()
				lines.Call(longest, 1)
			})
		})
	})
	panics(t, "a step inside a step of the same caller", func() {
		caller.Step(func(lines *Lines) { caller.Commit() })
	})
	panics(t, "an argument is from 0 to 4294967295, and not 4294967296", func() {
		caller.Call("delete", 5, 1<<32)
	})
	panics(t, "a value is from 0 to 9223372036854775807, and not 9223372036854775808", func() {
		caller.Step(func(lines *Lines) { lines.Write(0, 1<<63) })
	})
	caller.Commit()
	log.Finish()
	panics(t, "a step of a log that is finished", caller.Commit)
	panics(t, "a log is finished twice", func() { log.Finish() })
	same(t, to.String(), "vyrd 1 tree 1 2\n0 call "+longest+"\n1 commit\n0 commit\nend\n")
}

func TestAWriteThatFailsIsSaidAtTheEnd(t *testing.T) {
	log, err := New(NewHeader(1, "tree", 1, 1), fullDevice{}, Options{Unwatched: true})
	same(t, err, nil)
	callerOf(t, log).Commit()
	same(t, fmt.Sprint(log.Finish()), "the log can't be written: full")
	_, err = Create(NewHeader(1, "tree", 1, 1), "no/such/folder/log", Options{})
	if err == nil || !strings.Contains(err.Error(), "no/such/folder/log") {
		t.Errorf("got: %v", err)
	}
}

// together runs the body in so many goroutines, each with a caller, and waits for them.
func together(t *testing.T, log *Log, goroutines int, body func(*Caller)) {
	var all sync.WaitGroup
	for n := 0; n < goroutines; n++ {
		caller := callerOf(t, log)
		all.Add(1)
		go func() {
			defer all.Done()
			defer caller.GiveBack()
			log.StartTogether(goroutines)
			body(caller)
		}()
	}
	all.Wait()
}

// A buffer that is too small for two lines, goroutines that meet, and pauses by a seed.
func TestTheLinesOfAStepStandTogether(t *testing.T) {
	for _, order := range []Order{ByLock, ByNumbers} {
		options := Options{Order: order, Seeded: true, Seed: 3, Buffer: 8, Unwatched: true}
		log, to := newLog(t, NewHeader(1, "cache", 1, 8), options)
		together(t, log, 8, func(caller *Caller) {
			for m := 0; m < 5000; m++ {
				caller.Step(func(lines *Lines) { lines.Observed(0, "read", 0) })
			}
		})
		if err := log.Close(); err != nil {
			t.Fatal(err)
		}
		lines := strings.Split(strings.TrimSuffix(to.String(), "\n"), "\n")
		same(t, len(lines), 80_001)
		for n := 1; n+1 < len(lines); n += 2 {
			same(t, strings.Replace(lines[n], "call read 0", "return 0", 1), lines[n+1])
		}
	}
}

// A lock of the program gives the order; each caller's number stands in its lines.
func TestNumbersKeepTheOrderOfTheProgramsLock(t *testing.T) {
	log, to := newLog(t, NewHeader(1, "cache", 1, 4), Options{Order: ByNumbers})
	var order sync.Mutex
	wanted := "vyrd 1 cache 1 4\n"
	together(t, log, 4, func(caller *Caller) {
		for value := uint64(0); value < 3000; value++ {
			order.Lock()
			caller.Step(func(lines *Lines) { lines.Write(0, value) })
			wanted += fmt.Sprintf("%d write 0 %d\n", caller.Number(), value)
			order.Unlock()
		}
	})
	if err := log.Finish(); err != nil {
		t.Fatal(err)
	}
	same(t, to.String(), wanted+"end\n")
}
