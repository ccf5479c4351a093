// A channel, which shows nothing of what happens inside it. A lock of the senders' gives their order,
// and one of the receivers' gives theirs. A sender is beside a receiver at all times, in the channel too.
//
//	queue correct SPECIFICATION [SEED [OPERATIONS]]    the channel
//	queue aside SPECIFICATION [SEED [OPERATIONS]]      what finds no room in the channel goes to a slice
//	                                                   aside, which a receiver looks into first: a
//	                                                   queue that is a stack where it is full
package main

import (
	"math/rand"
	"real/play"
	"sync"
	"sync/atomic"
	"vyrdlog"
)

type queue struct {
	channel   chan uint64
	senders   sync.Mutex
	receivers sync.Mutex
	aside     *aside // nil: there is none
}

type aside struct {
	lock  sync.Mutex
	stack []uint64
}

func (a *aside) push(x uint64) {
	a.lock.Lock()
	defer a.lock.Unlock()
	a.stack = append(a.stack, x)
}

func (a *aside) pop() (uint64, bool) {
	a.lock.Lock()
	defer a.lock.Unlock()
	last := len(a.stack) - 1
	if last < 0 {
		return 0, false
	}
	x := a.stack[last]
	a.stack = a.stack[:last]
	return x, true
}

// enqueue logs its commit before it sends: the element can be received from then on, and not before.
// It may wait for room, which is no step of the log.
func (q *queue) enqueue(caller *vyrdlog.Caller, x uint64) {
	q.senders.Lock()
	caller.Step(func(lines *vyrdlog.Lines) {
		lines.Here()
		lines.Call("enqueue", x)
		lines.Commit()
	})
	q.send(x)
	q.senders.Unlock()
	caller.Returns(1)
}

func (q *queue) send(x uint64) {
	if q.aside == nil {
		q.channel <- x
		return
	}
	select {
	case q.channel <- x:
	default:
		q.aside.push(x)
	}
}

// dequeue logs all of its call after it has received. It waits until there is an element, so it never
// says that there is none.
func (q *queue) dequeue(caller *vyrdlog.Caller) {
	q.receivers.Lock()
	x := q.receive()
	caller.Step(func(lines *vyrdlog.Lines) {
		lines.Here()
		lines.Call("dequeue")
		lines.Commit()
		lines.Returns(x + 1)
	})
	q.receivers.Unlock()
}

func (q *queue) receive() uint64 {
	if q.aside != nil {
		if x, found := q.aside.pop(); found {
			return x
		}
	}
	return <-q.channel
}

func main() {
	words := play.Read("correct", "aside")
	q := &queue{channel: make(chan uint64, 4)}
	if words.Fault == "aside" {
		q.aside = &aside{}
	}
	var next atomic.Uint64 // each element is another one
	play.Play(words, vyrdlog.ByLock, func(caller *vyrdlog.Caller, _ *rand.Rand) {
		// Two goroutines send and two receive, so nobody waits for ever.
		if caller.Number()%2 == 0 {
			q.enqueue(caller, next.Add(1))
		} else {
			q.dequeue(caller)
		}
	})
}
