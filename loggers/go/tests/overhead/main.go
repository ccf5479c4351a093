// What a step costs: nanoseconds of each step and its line, with the log and without it.
//
//	overhead THREADS STEPS
package main

import (
	"fmt"
	"io"
	"os"
	"strconv"
	"sync"
	"sync/atomic"
	"time"
	"vyrdlog"
)

var word atomic.Uint64 // a store to it is a change of the program

func nanosecondsOfAStep(goroutines int, steps uint64, body func()) float64 {
	begin := time.Now()
	var all sync.WaitGroup
	all.Add(goroutines)
	for n := 0; n < goroutines; n++ {
		go func() {
			defer all.Done()
			body()
		}()
	}
	all.Wait()
	return float64(time.Since(begin).Nanoseconds()) / float64(uint64(goroutines)*steps)
}

func with(order vyrdlog.Order, goroutines int, steps uint64) (float64, error) {
	header := vyrdlog.NewHeader(1, "multiset", 1, goroutines)
	log, err := vyrdlog.New(header, io.Discard, vyrdlog.Options{Order: order})
	if err != nil {
		return 0, err
	}
	took := nanosecondsOfAStep(goroutines, steps, func() {
		caller, err := log.Caller()
		if err != nil {
			panic(err)
		}
		defer caller.GiveBack()
		for m := uint64(0); m < steps; m++ {
			caller.Step(func(lines *vyrdlog.Lines) {
				word.Store(m)
				lines.Write(1, m)
			})
		}
	})
	return took, log.Close()
}

func run(goroutines int, steps uint64) error {
	without := nanosecondsOfAStep(goroutines, steps, func() {
		for m := uint64(0); m < steps; m++ {
			word.Store(m)
		}
	})
	byLock, err := with(vyrdlog.ByLock, goroutines, steps)
	if err != nil {
		return err
	}
	byNumbers, err := with(vyrdlog.ByNumbers, goroutines, steps)
	fmt.Printf("Go, %d threads: %.0f ns a step without the log, %.0f ns with it by its lock, "+
		"%.0f ns with it by numbers\n", goroutines, without, byLock, byNumbers)
	return err
}

func main() {
	if len(os.Args) != 3 {
		fmt.Fprintln(os.Stderr, "usage: overhead THREADS STEPS")
		os.Exit(64)
	}
	goroutines, _ := strconv.Atoi(os.Args[1])
	steps, _ := strconv.ParseUint(os.Args[2], 10, 64)
	if err := run(goroutines, steps); err != nil {
		fmt.Fprintln(os.Stderr, err)
		os.Exit(1)
	}
}
