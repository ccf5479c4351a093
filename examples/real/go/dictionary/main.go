// sync.Map, which shows nothing of what happens inside it. A lock for each key gives the order at that
// key: it is held from before the library is called until the commit is logged. Operations of different
// keys are beside one another, in the library too.
//
//	dictionary correct SPECIFICATION [SEED [OPERATIONS]]        each operation holds its key's lock once
//	dictionary get_then_put SPECIFICATION [SEED [OPERATIONS]]   put_if_absent looks, and then puts
//	dictionary forgetful SPECIFICATION [SEED [OPERATIONS]]      remove looks for the old value, and then
//	                                                            removes whatever is there
package main

import (
	"math/rand"
	"real/play"
	"runtime"
	"sync"
	"vyrdlog"
)

const keys = 8

type dictionary struct {
	library   sync.Map
	locks     [keys]sync.Mutex
	putsLater bool // get_then_put
	forgets   bool // forgetful
}

// reply is what a value is replied as: 0 says that there is none.
func reply(value any, found bool) uint64 {
	if !found {
		return 0
	}
	return value.(uint64) + 1
}

func (d *dictionary) get(_ *vyrdlog.Caller, k uint64) uint64 {
	d.locks[k].Lock()
	defer d.locks[k].Unlock()
	return reply(d.library.Load(k))
}

func (d *dictionary) put(caller *vyrdlog.Caller, k, v uint64) uint64 {
	d.locks[k].Lock()
	defer d.locks[k].Unlock()
	old := reply(d.library.Load(k))
	d.library.Store(k, v)
	caller.Commit()
	return old
}

func (d *dictionary) putIfAbsent(caller *vyrdlog.Caller, k, v uint64) uint64 {
	if d.putsLater {
		old := d.get(caller, k)
		if old == 0 {
			runtime.Gosched()
			d.put(caller, k, v)
		}
		return old
	}
	d.locks[k].Lock()
	defer d.locks[k].Unlock()
	value, loaded := d.library.LoadOrStore(k, v)
	if !loaded { // otherwise nothing changes, so nothing commits
		caller.Commit()
	}
	return reply(value, loaded)
}

func (d *dictionary) remove(caller *vyrdlog.Caller, k uint64) uint64 {
	seen := uint64(0)
	if d.forgets {
		seen = d.get(caller, k)
		runtime.Gosched()
	}
	d.locks[k].Lock()
	defer d.locks[k].Unlock()
	value, loaded := d.library.LoadAndDelete(k)
	if loaded {
		caller.Commit()
	}
	if loaded && d.forgets {
		return seen
	}
	return reply(value, loaded)
}

func main() {
	words := play.Read("correct", "get_then_put", "forgetful")
	d := &dictionary{putsLater: words.Fault == "get_then_put", forgets: words.Fault == "forgetful"}
	play.Play(words, vyrdlog.ByNumbers, func(caller *vyrdlog.Caller, random *rand.Rand) {
		k, v := uint64(random.Intn(keys)), uint64(random.Intn(8))
		switch random.Intn(4) {
		case 0:
			caller.Call("get", k)
			caller.Returns(d.get(caller, k))
		case 1:
			caller.Call("put", k, v)
			caller.Returns(d.put(caller, k, v))
		case 2:
			caller.Call("put_if_absent", k, v)
			caller.Returns(d.putIfAbsent(caller, k, v))
		default:
			caller.Call("remove", k)
			caller.Returns(d.remove(caller, k))
		}
	})
}
