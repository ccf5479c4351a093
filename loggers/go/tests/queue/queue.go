package main

import (
	"math/rand"
	"sync"
	"sync/atomic"
	"vyrdlog"
)

const (
	cells    = 4
	callers  = 4
	leafSize = 12 // words of a leaf, and where those that are used stand among them
	count    = 1
	bound    = 2
	right    = 3
	key      = 4
	value    = 8
)

// A cell of the ring. The turn says whose it is: that of the push with this position, or, if it is
// one more, of the pop with this position.
type cell struct {
	turn  atomic.Uint64
	value uint64
}

// A queue without a lock. An element's key in the log is its ticket: how many pushes took effect
// before it. A pop has to find the ticket that says how many pops did.
type queue struct {
	between func(caller int) // not nil, or racing: a push takes its position by a load and a store
	racing  bool

	cells          [cells]cell
	head, tail     atomic.Uint64
	pushed, popped uint64 // of the log: they change in its steps alone
}

func newQueue(racing bool, between func(int)) *queue {
	q := &queue{between: between, racing: racing || between != nil}
	for i := range q.cells {
		q.cells[i].turn.Store(uint64(i))
	}
	return q
}

// push says whether there was room. It takes effect where it takes its position, and stores its
// element after that: from the one to the other it is a block.
func (q *queue) push(caller *vyrdlog.Caller, x uint64) bool {
	for {
		at := q.tail.Load()
		cell := &q.cells[at%cells]
		turn := cell.turn.Load()
		if turn < at {
			return false
		}
		if turn == at && q.taken(caller, at, x) {
			leaf := uint32(leafSize * (at % cells))
			caller.Step(func(lines *vyrdlog.Lines) {
				cell.value = x
				lines.Write(leaf+value, cell.value)
			})
			caller.Step(func(lines *vyrdlog.Lines) {
				cell.turn.Store(at + 1)
				lines.Write(leaf+count, 1)
				lines.Close()
				lines.Returns(1)
			})
			return true
		}
	}
}

func (q *queue) taken(caller *vyrdlog.Caller, at, x uint64) bool {
	if q.between != nil {
		q.between(caller.Number())
	}
	done := false
	caller.Step(func(lines *vyrdlog.Lines) {
		if q.racing { // the mistake: another push may have taken the position meanwhile
			q.tail.Store(at + 1)
			done = true
		} else {
			done = q.tail.CompareAndSwap(at, at+1)
		}
		if done {
			lines.Call("insert", q.pushed, x)
			lines.Open()
			lines.Commit()
			lines.Write(uint32(leafSize*(at%cells)+key), q.pushed)
			q.pushed++
		}
	})
	return done
}

// pop says whether there was an element. An empty queue isn't logged: this one says that it is empty
// also where the oldest push hasn't stored its element yet.
func (q *queue) pop(caller *vyrdlog.Caller) (uint64, bool) {
	for {
		at := q.head.Load()
		cell := &q.cells[at%cells]
		turn := cell.turn.Load()
		if turn < at+1 {
			return 0, false
		}
		if turn > at+1 {
			continue
		}
		if x, done := q.given(caller, at); done {
			caller.Step(func(lines *vyrdlog.Lines) {
				cell.turn.Store(at + cells)
				lines.Write(uint32(leafSize*(at%cells)+count), 0)
				lines.Close()
				lines.Returns(1)
			})
			return x, true
		}
	}
}

func (q *queue) given(caller *vyrdlog.Caller, at uint64) (x uint64, done bool) {
	caller.Step(func(lines *vyrdlog.Lines) {
		done = q.head.CompareAndSwap(at, at+1)
		if done {
			x = q.cells[at%cells].value
			lines.Observed(x+1, "lookup", q.popped)
			lines.Call("delete", q.popped)
			lines.Open()
			lines.Commit()
			q.popped++
		}
	})
	return x, done
}

func (q *queue) play(caller *vyrdlog.Caller, seed int64, operations int) {
	draw := rand.New(rand.NewSource(64*seed + int64(caller.Number())))
	for n := 0; n < operations; n++ {
		if draw.Intn(2) == 0 {
			q.push(caller, uint64(draw.Intn(1000)))
		} else {
			q.pop(caller)
		}
	}
}

// together lets all callers play with one queue.
func together(log *vyrdlog.Log, racing bool, seed int64, operations int) {
	q := newQueue(racing, nil)
	var all sync.WaitGroup
	for n := 0; n < callers; n++ {
		all.Add(1)
		go func() {
			defer all.Done()
			caller := callerOf(log)
			defer caller.GiveBack()
			log.StartTogether(callers)
			q.play(caller, seed, operations)
		}()
	}
	all.Wait()
}

// interrupted: caller 0 finds position 0 free. Before it takes it, caller 1 does so, and fills it.
func interrupted(log *vyrdlog.Log) {
	first, second := callerOf(log), callerOf(log)
	var q *queue
	q = newQueue(true, func(caller int) {
		if caller != 0 {
			return
		}
		done := make(chan bool)
		go func() {
			q.push(second, 20)
			close(done)
		}()
		<-done
	})
	q.push(first, 10)
}

func callerOf(log *vyrdlog.Log) *vyrdlog.Caller {
	caller, err := log.Caller()
	if err != nil {
		panic(err)
	}
	return caller
}

// leaves is a tree that has an empty leaf for each cell, in a chain.
func leaves() map[uint32]uint64 {
	words := map[uint32]uint64{leafSize*cells + 1: cells - 1}
	for next := uint32(1); next < cells; next++ {
		words[leafSize*(next-1)+bound] = uint64(next) + 1
		words[leafSize*(next-1)+right] = uint64(next)
	}
	return words
}
