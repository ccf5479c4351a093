// A program that ends in the way that its first word says, with a log in the file of its second.
// Go calls nothing where a program ends: where the log isn't closed, it waits until its lines are
// written by themselves.
//
//	life finish | leave | exit | panic | panic_in_step | fault | terminate | interrupt | hang FILE
package main

import (
	"bytes"
	"fmt"
	"os"
	"syscall"
	"time"
	"vyrdlog"
)

const lastLine = "1 call lookup 5\n"

// await waits until a file ends with the last line.
func await(path string) {
	for {
		text, err := os.ReadFile(path)
		if err == nil && bytes.HasSuffix(text, []byte(lastLine)) {
			return
		}
		time.Sleep(time.Millisecond)
	}
}

func send(signal syscall.Signal) {
	if err := syscall.Kill(os.Getpid(), signal); err != nil {
		panic(err)
	}
	time.Sleep(time.Minute)
}

func insert(caller *vyrdlog.Caller) {
	caller.Call("insert", 5)
	caller.Step(func(lines *vyrdlog.Lines) { lines.Write(1, 5) })
	caller.Step(func(lines *vyrdlog.Lines) {
		lines.Write(0, 2)
		lines.Commit()
	})
	caller.Returns(1)
}

func run(way, path string) error {
	log, err := vyrdlog.Create(vyrdlog.NewHeader(1, "multiset", 1, 2), path, vyrdlog.Options{})
	if err != nil {
		return err
	}
	first, _ := log.Caller()
	second, _ := log.Caller()
	insert(first)
	second.Call("lookup", 5)
	switch way {
	case "finish":
		second.Returns(1)
		return log.Finish()
	case "leave":
		return log.Close()
	case "exit":
		await(path)
		os.Exit(3)
	case "panic":
		defer log.Close()
		panic("by the test")
	case "panic_in_step":
		defer log.Close()
		second.Step(func(*vyrdlog.Lines) { panic("by the test") })
	case "fault":
		await(path)
		send(syscall.SIGSEGV)
	case "terminate":
		await(path)
		send(syscall.SIGTERM)
	case "interrupt":
		await(path)
		send(syscall.SIGINT)
	case "hang":
		second.Step(func(*vyrdlog.Lines) { time.Sleep(time.Minute) })
	}
	return nil
}

func main() {
	if len(os.Args) != 3 {
		fmt.Fprintln(os.Stderr, "usage: life WAY FILE")
		os.Exit(64)
	}
	if err := run(os.Args[1], os.Args[2]); err != nil {
		fmt.Fprintln(os.Stderr, err)
		os.Exit(1)
	}
}
