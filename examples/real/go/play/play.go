// Package play lets goroutines use a structure, each with a caller of the log and with numbers that
// a seed gives.
package play

import (
	"fmt"
	"math/rand"
	"os"
	"strconv"
	"strings"
	"sync"
	"vyrdlog"
)

// Words are what a program's words ask for.
type Words struct {
	Fault         string
	specification string
	seed          uint64
	operations    int
}

func usage(faults []string) {
	fmt.Fprintf(os.Stderr, "usage: %s FAULT SPECIFICATION [SEED [OPERATIONS]], where FAULT is one of: %s\n",
		os.Args[0], strings.Join(faults, " "))
	os.Exit(64)
}

// Read reads `NAME FAULT SPECIFICATION [SEED [OPERATIONS]]`, with a fault among these.
func Read(faults ...string) Words {
	all := os.Args
	if len(all) < 3 || len(all) > 5 || !strings.Contains(" "+strings.Join(faults, " ")+" ", " "+all[1]+" ") {
		usage(faults)
	}
	words := Words{Fault: all[1], specification: all[2], seed: 1, operations: 100}
	var err error
	if len(all) > 3 {
		words.seed, err = strconv.ParseUint(all[3], 10, 64)
	}
	if len(all) > 4 && err == nil {
		words.operations, err = strconv.Atoi(all[4])
	}
	if err != nil {
		usage(faults)
	}
	return words
}

// Play lets four goroutines call the operation, so many times each. The log on standard output ends
// with them.
func Play(words Words, order vyrdlog.Order, operation func(*vyrdlog.Caller, *rand.Rand)) {
	if err := play(words, order, operation); err != nil {
		fmt.Fprintln(os.Stderr, err)
		os.Exit(1)
	}
}

func play(words Words, order vyrdlog.Order, operation func(*vyrdlog.Caller, *rand.Rand)) error {
	const goroutines = 4
	options := vyrdlog.Options{Order: order, Seeded: true, Seed: words.seed}
	log, err := vyrdlog.New(vyrdlog.OwnHeaderFile(words.specification), os.Stdout, options)
	if err != nil {
		return err
	}
	var all sync.WaitGroup
	for n := 0; n < goroutines; n++ {
		caller, err := log.Caller()
		if err != nil {
			return err
		}
		all.Add(1)
		go func() {
			defer all.Done()
			random := rand.New(rand.NewSource(int64(words.seed*goroutines) + int64(caller.Number())))
			log.StartTogether(goroutines)
			for m := 0; m < words.operations; m++ {
				operation(caller, random)
			}
		}()
	}
	all.Wait()
	return log.Finish()
}
