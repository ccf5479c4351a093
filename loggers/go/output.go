package vyrdlog

import (
	"fmt"
	"io"
	"sort"
	"sync"
	"sync/atomic"
)

// full is how many bytes a caller keeps before it merges all numbered steps itself, where a log
// isn't watched or the goroutine that watches doesn't come to it.
const full = 1024 * 1024

// output is where the lines of steps go. What it keeps ends with a whole line, and so does each
// write.
type output struct {
	numbers *numbers // nil: the steps come in their order

	lock     sync.Mutex // guards what is below
	kept     []byte
	capacity int
	to       io.Writer
	err      error
}

func (o *output) append(lines []byte) {
	o.lock.Lock()
	defer o.lock.Unlock()
	o.kept = append(o.kept, lines...)
	if len(o.kept) >= o.capacity {
		o.put()
	}
}

// add takes the lines of a caller's step.
func (o *output) add(caller int, lines []byte) {
	if o.numbers == nil {
		o.append(lines)
	} else if o.numbers.add(caller, lines) >= full {
		o.numbers.merge(o)
	}
}

// flush writes what is kept, and gives the first error of any write.
func (o *output) flush() error {
	o.merge()
	o.lock.Lock()
	defer o.lock.Unlock()
	o.put()
	if o.err != nil {
		return fmt.Errorf("the log can't be written: %w", o.err)
	}
	return nil
}

func (o *output) merge() {
	if o.numbers != nil {
		o.numbers.merge(o)
	}
}

// end is called when what the output writes to is closed: later lines are left out.
func (o *output) end() {
	o.lock.Lock()
	defer o.lock.Unlock()
	o.kept, o.to = o.kept[:0], io.Discard
}

func (o *output) put() {
	if len(o.kept) > 0 && o.err == nil {
		_, o.err = o.to.Write(o.kept)
	}
	o.kept = o.kept[:0]
}

// numbers is the second way to order steps: each has a number from one counter, and each caller
// keeps its own steps until they are merged. A number is drawn under the lock of the caller that
// keeps the step. So whoever reads the counter and then takes the locks one after the other finds
// each number below what was read, and no number is missing from a merge.
type numbers struct {
	next atomic.Uint64
	kept []kept // one for each caller

	lock   sync.Mutex // guards the one below
	merged uint64     // all numbers below it are
}

type kept struct {
	lock  sync.Mutex
	text  []byte
	steps []step
}

// step is a step's number, and where its lines end in its caller's text.
type step struct {
	number uint64
	end    int
}

// place is where the lines of a step begin and end in a text.
type place struct{ begin, end int }

// add keeps a step, and says how many bytes its caller keeps now.
func (n *numbers) add(caller int, lines []byte) int {
	kept := &n.kept[caller]
	kept.lock.Lock()
	defer kept.lock.Unlock()
	number := n.next.Add(1) - 1
	kept.text = append(kept.text, lines...)
	kept.steps = append(kept.steps, step{number, len(kept.text)})
	return len(kept.text)
}

// merge gives the output all steps that were added before this call.
func (n *numbers) merge(to *output) {
	n.lock.Lock()
	defer n.lock.Unlock()
	below := n.next.Load()
	if below == n.merged {
		return
	}
	var text []byte
	places := make([]place, below-n.merged)
	for caller := range n.kept {
		text = n.kept[caller].take(below, text, places, n.merged)
	}
	ordered := make([]byte, 0, len(text))
	for _, place := range places {
		ordered = append(ordered, text[place.begin:place.end]...)
	}
	to.append(ordered)
	n.merged = below
}

// take moves the lines of the steps below a number to the end of `text`. `places` says where those
// of each are there, by their numbers from `merged` on.
func (k *kept) take(below uint64, text []byte, places []place, merged uint64) []byte {
	k.lock.Lock()
	defer k.lock.Unlock()
	count := sort.Search(len(k.steps), func(i int) bool { return k.steps[i].number >= below })
	first, bytes := len(text), 0
	for _, step := range k.steps[:count] {
		places[step.number-merged] = place{first + bytes, first + step.end}
		bytes = step.end
	}
	text = append(text, k.text[:bytes]...)
	k.text = k.text[:copy(k.text, k.text[bytes:])]
	k.steps = k.steps[:copy(k.steps, k.steps[count:])]
	for i := range k.steps {
		k.steps[i].end -= bytes
	}
	return text
}
