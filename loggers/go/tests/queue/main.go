// A queue in a ring without a lock, whose log is judged: that elements come out in the order in
// which they went in, too. It is logged as a tree that has a leaf for each cell.
//
//	queue correct [SEED [OPERATIONS]]    a push takes its position by a compare-and-set
//	queue broken                         by a load and a store: two take the same one
//	queue racing [SEED [OPERATIONS]]     the same mistake, by goroutines that meet or don't
package main

import (
	"fmt"
	"os"
	"strconv"
	"vyrdlog"
)

func number(place, otherwise int) int {
	if len(os.Args) <= place {
		return otherwise
	}
	n, err := strconv.Atoi(os.Args[place])
	if err != nil {
		fmt.Fprintln(os.Stderr, err)
		os.Exit(64)
	}
	return n
}

func run(body func(*vyrdlog.Log)) error {
	header := vyrdlog.StartHeader("tree", cells, callers, leaves())
	log, err := vyrdlog.New(header, os.Stdout, vyrdlog.Options{})
	if err != nil {
		return err
	}
	body(log)
	return log.Finish()
}

func main() {
	word := ""
	if len(os.Args) > 1 {
		word = os.Args[1]
	}
	seed, operations := int64(number(2, 7)), number(3, 500)
	var err error
	switch word {
	case "correct", "racing":
		err = run(func(log *vyrdlog.Log) { together(log, word == "racing", seed, operations) })
	case "broken":
		err = run(interrupted)
	default:
		fmt.Fprintln(os.Stderr, "usage: queue correct | broken | racing [SEED [OPERATIONS]]")
		os.Exit(64)
	}
	if err != nil {
		fmt.Fprintln(os.Stderr, err)
		os.Exit(1)
	}
}
