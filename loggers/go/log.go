package vyrdlog

import (
	"errors"
	"fmt"
	"io"
	"os"
	"runtime"
	"strconv"
	"sync"
	"sync/atomic"
	"time"
)

// Order is what puts the steps in an order.
type Order int

const (
	// ByLock is one lock of the log's own, which is held for a step: for any program.
	ByLock Order = iota
	// ByNumbers is a number from one counter, which is drawn at the end of a step, while the
	// program's own lock keeps others away. It disturbs the goroutines less, and is for programs
	// alone where each change is made, and each look taken, under a lock of the program, with its
	// step under that lock too. Calls are logged before that lock is taken, and returns after it is
	// given back.
	ByNumbers
)

// Options says how a log is written. The zero value is the default.
type Options struct {
	// Order is what puts the steps in an order.
	Order Order
	// Seeded says that there is a seed. With one, callers yield or sleep for a moment before some of
	// their steps, by numbers that the seed and their own number give. Without one the variable
	// VYRD_SEED is the seed; where it isn't set there are no such pauses.
	Seeded bool
	Seed   uint64
	// Buffer is how many bytes are kept before they are written; 0 stands for 65,536.
	Buffer int
	// Unwatched switches off that what is kept is written every 20 milliseconds. It takes one
	// goroutine for all logs, and a log that nobody closes is then kept until the program ends.
	Unwatched bool
}

// Log is a log that is being written. Its methods may be called from any goroutine.
type Log struct {
	output *output
	seeded bool
	seed   uint64
	file   *os.File // the log's own, or nil
	most   int      // bytes of a line

	step     sync.Mutex // held for a step, where this is what orders them
	finished atomic.Bool
	inCall   []atomic.Bool // by the callers' numbers
	closed   sync.Once

	hands    sync.Mutex // guards what is below
	taken    []bool
	lost     int // taken by handles that were given back inside a call
	waiting  int
	meetings uint64
	allHere  *sync.Cond
}

// Create opens a log in a file, which is made anew. Its error says that the header isn't one, that
// VYRD_SEED is set and no number below 2^64, or that the file can't be opened.
func Create(header Header, path string, options Options) (*Log, error) {
	if _, err := header.Lines(); err != nil {
		return nil, err
	}
	file, err := os.Create(path)
	if err != nil {
		return nil, err
	}
	log, err := New(header, file, options)
	if err != nil {
		file.Close()
		return nil, err
	}
	log.file = file
	return log, nil
}

// New opens a log to anything that takes bytes, which isn't closed. It is given whole lines, and
// needs no buffer of its own.
func New(header Header, to io.Writer, options Options) (*Log, error) {
	lines, err := header.Lines()
	if err != nil {
		return nil, err
	}
	if options, err = seededOutside(options); err != nil {
		return nil, err
	}
	if options.Buffer == 0 {
		options.Buffer = 64 * 1024
	}
	out := &output{to: to, capacity: options.Buffer}
	if options.Order == ByNumbers {
		out.numbers = &numbers{kept: make([]kept, header.callers)}
	}
	out.append([]byte(lines))
	log := &Log{output: out, seeded: options.Seeded, seed: options.Seed, most: header.lineBytes()}
	log.taken = make([]bool, header.callers)
	log.inCall = make([]atomic.Bool, header.callers)
	log.allHere = sync.NewCond(&log.hands)
	if !options.Unwatched {
		watchToo(out)
	}
	return log, nil
}

func seededOutside(options Options) (Options, error) {
	text, isSet := os.LookupEnv("VYRD_SEED")
	if options.Seeded || !isSet {
		return options, nil
	}
	seed, err := strconv.ParseUint(text, 10, 64)
	if err != nil {
		return options, errors.New("VYRD_SEED isn't a number below 2^64")
	}
	options.Seeded, options.Seed = true, seed
	return options, nil
}

// Caller hands out a handle for a goroutine, with the least number that is free. Its error says
// that all of the header's callers are handed out.
func (l *Log) Caller() (*Caller, error) {
	l.hands.Lock()
	defer l.hands.Unlock()
	for number, taken := range l.taken {
		if !taken {
			l.taken[number] = true
			return newCaller(l, number), nil
		}
	}
	lost := ""
	if l.lost > 0 {
		lost = fmt.Sprintf(" (given back inside a call: %d)", l.lost)
	}
	return nil, fmt.Errorf("no caller is free: all %d of the header are handed out%s", len(l.taken), lost)
}

// StartTogether waits until so many goroutines are here, and lets them all go: a start barrier.
func (l *Log) StartTogether(goroutines int) {
	l.hands.Lock()
	defer l.hands.Unlock()
	meeting := l.meetings
	if l.waiting++; l.waiting >= goroutines {
		l.waiting = 0
		l.meetings++
		l.allHere.Broadcast()
	}
	for l.meetings == meeting {
		l.allHere.Wait()
	}
}

// Flush writes what is kept, and the log stays open. Its error is that of a write, now or before.
func (l *Log) Flush() error { return l.output.flush() }

// Finish writes `end` and what is kept, and closes the file: once, when all calls have returned.
// The log takes no step after it. Its error is that of a write, now or before. It panics if the log
// was finished before.
func (l *Log) Finish() error {
	l.step.Lock()
	if l.finished.Swap(true) {
		l.step.Unlock()
		panic("a log is finished twice")
	}
	l.output.merge()
	l.output.append([]byte("end\n"))
	l.step.Unlock()
	return l.Close()
}

// Close writes what is kept, and closes the file. A log that isn't finished gets no `end`: it says
// that the run wasn't. Steps that come after it are left out. Its error is that of a write, now or
// before.
func (l *Log) Close() error {
	watchNoMore(l.output)
	err := l.output.flush()
	l.closed.Do(func() {
		if l.file == nil {
			return
		}
		if failed := l.file.Close(); err == nil {
			err = failed
		}
		l.output.end()
	})
	return err
}

// Caller is one caller of a log, for one goroutine at a time.
type Caller struct {
	log       *Log
	number    int
	lines     Lines
	inside    bool
	givenBack bool
	draw      uint64 // 0: no pauses
}

func newCaller(log *Log, number int) *Caller {
	lines := Lines{caller: number, most: log.most, inCall: log.inCall}
	c := &Caller{log: log, number: number, lines: lines}
	if log.seeded {
		// Two multiples of odd numbers: never 0 together, as seeds and numbers go.
		c.draw = log.seed*0x9e3779b97f4a7c15 + uint64(number)*2 + 1
	}
	return c
}

// Number is its number, from 0 on and below the header's callers.
func (c *Caller) Number() int { return c.number }

// GiveBack gives the number back, when its last call has returned. It may then be that of another
// goroutine, and this handle takes no step. Inside a call the number is kept, so that no other
// goroutine is blamed.
func (c *Caller) GiveBack() {
	c.log.hands.Lock()
	defer c.log.hands.Unlock()
	if c.givenBack {
		return
	}
	c.givenBack = true
	if c.log.inCall[c.number].Load() {
		c.log.lost++
	} else {
		c.log.taken[c.number] = false
	}
}

// Step calls the action with the step's lines. No step of another caller takes place meanwhile, so
// put no more than one change into it, and nothing that waits: no step of another caller either,
// which would wait for ever. If the action panics, the lines that it has added stay. Step panics
// inside another step of this caller, after GiveBack, and after [Log.Finish].
func (c *Caller) Step(action func(*Lines)) {
	c.pause()
	if c.inside {
		panic("a step inside a step of the same caller")
	}
	if c.log.output.numbers == nil {
		c.log.step.Lock()
		defer c.log.step.Unlock()
	}
	if c.log.finished.Load() {
		panic("a step of a log that is finished")
	}
	if c.givenBack {
		panic("a step of a caller that is given back")
	}
	c.inside = true
	defer c.ended()
	action(&c.lines)
}

func (c *Caller) ended() {
	c.log.output.add(c.number, c.lines.text)
	c.lines.text = c.lines.text[:0]
	c.inside = false
}

// Call is a call, in a step of its own, before the method does anything. See [Lines.Call].
func (c *Caller) Call(method string, arguments ...uint64) {
	c.Step(func(lines *Lines) { lines.Call(method, arguments...) })
}

// Returns is a return, in a step of its own, after the method has done all. See [Lines.Returns].
func (c *Caller) Returns(reply uint64) {
	c.Step(func(lines *Lines) { lines.Returns(reply) })
}

// Commit is a commit in a step of its own, for an operation that takes effect without a change.
func (c *Caller) Commit() { c.Step((*Lines).Commit) }

func (c *Caller) pause() {
	if c.draw == 0 {
		return
	}
	c.draw ^= c.draw << 13
	c.draw ^= c.draw >> 7
	c.draw ^= c.draw << 17
	if c.draw%256 == 0 {
		time.Sleep(time.Duration(c.draw/256%100) * time.Microsecond)
	} else if c.draw%8 == 0 {
		runtime.Gosched()
	}
}
