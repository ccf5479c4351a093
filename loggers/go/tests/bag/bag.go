// Package bag is a multiset in four slots, each with a value and a valid bit.
package bag

import (
	"math/rand"
	"sync"
	"sync/atomic"
	"vyrdlog"
)

const slots = 4

// Bag is the multiset. Where Between is set, an insert is broken: it looks for its slot without the
// lock, and calls Between before it takes the lock.
type Bag struct {
	Between func(caller int)

	lock  sync.Mutex
	valid [slots]atomic.Bool
	value [slots]uint64
}

// Insert puts an element into a free slot, if there is one.
func (b *Bag) Insert(caller *vyrdlog.Caller, x uint64) {
	caller.Call("insert", x)
	done := b.insert(caller, x)
	caller.Returns(vyrdlog.Bool(done))
}

func (b *Bag) insert(caller *vyrdlog.Caller, x uint64) bool {
	if b.Between == nil {
		b.lock.Lock()
		defer b.lock.Unlock()
		return b.fill(caller, b.free(), x)
	}
	free := b.free()
	b.Between(caller.Number())
	b.lock.Lock()
	defer b.lock.Unlock()
	return b.fill(caller, free, x)
}

// Delete takes an element out, if it is there.
func (b *Bag) Delete(caller *vyrdlog.Caller, x uint64) {
	caller.Call("delete", x)
	b.lock.Lock()
	i := b.find(x)
	caller.Step(func(lines *vyrdlog.Lines) {
		if i < slots {
			b.valid[i].Store(false)
			lines.Write(uint32(2*i), 0)
		}
		lines.Commit()
	})
	b.lock.Unlock()
	caller.Returns(vyrdlog.Bool(i < slots))
}

// Lookup looks whether an element is there.
func (b *Bag) Lookup(caller *vyrdlog.Caller, x uint64) {
	caller.Call("lookup", x)
	b.lock.Lock()
	found := b.find(x) < slots
	b.lock.Unlock()
	caller.Returns(vyrdlog.Bool(found))
}

// Take takes out any element. Which one is known only then, so all of the call's lines are there.
func (b *Bag) Take(caller *vyrdlog.Caller) {
	b.lock.Lock()
	defer b.lock.Unlock()
	i := 0
	for i < slots && !b.valid[i].Load() {
		i++
	}
	if i == slots {
		return
	}
	caller.Step(func(lines *vyrdlog.Lines) {
		b.valid[i].Store(false)
		lines.Observed(1, "lookup", b.value[i])
		lines.Call("delete", b.value[i])
		lines.Write(uint32(2*i), 0)
		lines.Commit()
		lines.Returns(1)
	})
}

// Play calls the methods with few values, as the seed and the caller's number say.
func (b *Bag) Play(caller *vyrdlog.Caller, seed int64) {
	draw := rand.New(rand.NewSource(64*seed + int64(caller.Number())))
	for n := 0; n < 500; n++ {
		x := uint64(draw.Intn(3))
		switch draw.Intn(6) {
		case 0:
			b.Delete(caller, x)
		case 1:
			b.Lookup(caller, x)
		case 2:
			b.Take(caller)
		default:
			b.Insert(caller, x)
		}
	}
}

// Together lets so many goroutines play with one bag.
func Together(log *vyrdlog.Log, goroutines int, seed int64) {
	var bag Bag
	var all sync.WaitGroup
	for n := 0; n < goroutines; n++ {
		all.Add(1)
		go func() {
			defer all.Done()
			caller := callerOf(log)
			defer caller.GiveBack()
			log.StartTogether(goroutines)
			bag.Play(caller, seed)
		}()
	}
	all.Wait()
}

// Interrupted is the broken one: caller 0 finds slot 0 free. Before it fills it, caller 1 does so,
// with its whole insert.
func Interrupted(log *vyrdlog.Log) {
	first, second := callerOf(log), callerOf(log)
	looked, filled, ended := make(chan bool), make(chan bool), make(chan bool)
	bag := Bag{Between: func(caller int) {
		if caller == 0 {
			close(looked)
			<-filled
		}
	}}
	go func() {
		bag.Insert(first, 5)
		close(ended)
	}()
	<-looked
	bag.Insert(second, 6)
	close(filled)
	<-ended
}

func callerOf(log *vyrdlog.Log) *vyrdlog.Caller {
	caller, err := log.Caller()
	if err != nil {
		panic(err)
	}
	return caller
}

func (b *Bag) fill(caller *vyrdlog.Caller, i int, x uint64) bool {
	if i == slots {
		caller.Commit()
		return false
	}
	caller.Step(func(lines *vyrdlog.Lines) {
		b.value[i] = x
		lines.Write(uint32(2*i+1), b.value[i])
	})
	caller.Step(func(lines *vyrdlog.Lines) {
		b.valid[i].Store(true)
		lines.Write(uint32(2*i), 2)
		lines.Commit()
	})
	return true
}

func (b *Bag) free() int {
	i := 0
	for i < slots && b.valid[i].Load() {
		i++
	}
	return i
}

func (b *Bag) find(x uint64) int {
	i := 0
	for i < slots && !(b.valid[i].Load() && b.value[i] == x) {
		i++
	}
	return i
}
