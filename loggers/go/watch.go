package vyrdlog

import (
	"sync"
	"time"
)

const tick = 20 * time.Millisecond

// watch writes what the logs keep, from a goroutine of its own, which stays until the process ends.
var watch struct {
	lock    sync.Mutex // guards the one below
	outputs map[*output]bool
	begun   sync.Once
}

func watchToo(o *output) {
	watch.lock.Lock()
	defer watch.lock.Unlock()
	if watch.outputs == nil {
		watch.outputs = map[*output]bool{}
	}
	watch.outputs[o] = true
	watch.begun.Do(func() { go flushOften() })
}

func watchNoMore(o *output) {
	watch.lock.Lock()
	defer watch.lock.Unlock()
	delete(watch.outputs, o)
}

func flushOften() {
	for range time.Tick(tick) {
		watch.lock.Lock()
		for o := range watch.outputs {
			_ = o.flush() // what has failed is said by Flush and Finish
		}
		watch.lock.Unlock()
	}
}
