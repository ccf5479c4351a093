// A multiset whose log is judged.
//
//	multiset correct     an insert finds its slot and fills it under the lock
//	multiset numbered    the same, with steps that are ordered by numbers
//	multiset broken      it looks for the slot before it takes the lock: two find the same one
//
// With the path of a specification after the word its log is of version 3, and begins with that.
package main

import (
	"fmt"
	"os"
	"vyrdlog"
	"vyrdlog/tests/bag"
)

func run(order vyrdlog.Order, callers int, body func(*vyrdlog.Log)) error {
	options := vyrdlog.Options{Order: order, Seeded: true, Seed: 7}
	header := vyrdlog.NewHeader(1, "multiset", 1, callers)
	if len(os.Args) == 3 {
		header = vyrdlog.OwnHeaderFile(os.Args[2])
	}
	log, err := vyrdlog.New(header, os.Stdout, options)
	if err != nil {
		return err
	}
	body(log)
	return log.Finish()
}

func main() {
	word := ""
	if len(os.Args) == 2 || len(os.Args) == 3 {
		word = os.Args[1]
	}
	correct := func(log *vyrdlog.Log) { bag.Together(log, 4, 7) }
	var err error
	switch word {
	case "correct":
		err = run(vyrdlog.ByLock, 4, correct)
	case "numbered":
		err = run(vyrdlog.ByNumbers, 4, correct)
	case "broken":
		err = run(vyrdlog.ByLock, 2, bag.Interrupted)
	default:
		fmt.Fprintln(os.Stderr, "usage: multiset correct | numbered | broken [SPECIFICATION]")
		os.Exit(64)
	}
	if err != nil {
		fmt.Fprintln(os.Stderr, err)
		os.Exit(1)
	}
}
