package vyrdlog

import (
	"fmt"
	"os"
	"path/filepath"
	"strconv"
	"time"
)

// Test is what CheckRuns needs of a test: a *testing.T is one.
type Test interface {
	Helper()
	Fatal(arguments ...any)
}

// Check says what CheckRuns is asked for. The zero value is the default.
type Check struct {
	// Runs is how many runs there are; 0 stands for 20.
	Runs int
	// Seed is the first run's seed; 0 stands for 1. The next runs have the numbers after it.
	Seed uint64
	// Time is how long the body may take; 0 stands for a minute.
	Time time.Duration
	// Log says how the logs are written. Their seed is the run's.
	Log Options
	// Folder is where the logs are. Without one it is a new one in the system's folder for temporary
	// files.
	Folder string
	// Program is the one that judges. Without it the variable VYRD names it.
	Program string
	// Explain is what says more of a log that isn't accepted. Without it the variable VYRD_EXPLAIN
	// names it, or else it is `tools/explain` beside the program.
	Explain string
}

// CheckRuns calls the body in many runs, each with a seed and a log of its own, and lets the
// program judge each log. The body waits for the goroutines that it starts, and doesn't finish the
// log: that is done when it has returned. A log that is accepted is removed.
//
// The test fails at the first run whose log isn't accepted or has no entry, whose body panics, or
// whose body hasn't returned in time. It says where the log is kept, which is judged as it is. A body that doesn't
// return goes on in its goroutine, and a panic in a goroutine that the body has started ends the
// test's process. The body doesn't call FailNow, Fatal or Skip of the test, which are for the
// test's own goroutine.
func CheckRuns(t Test, header Header, check Check, body func(seed uint64, log *Log)) {
	t.Helper()
	if err := check.withDefaults().allRuns(header, body); err != nil {
		t.Fatal(err)
	}
}

func (c Check) withDefaults() Check {
	if c.Runs == 0 {
		c.Runs = 20
	}
	if c.Seed == 0 {
		c.Seed = 1
	}
	if c.Time == 0 {
		c.Time = time.Minute
	}
	return c
}

func (c Check) allRuns(header Header, body func(uint64, *Log)) error {
	judge, err := newJudge(c.Program, c.Explain)
	if err != nil {
		return err
	}
	folder, err := c.folder()
	if err != nil {
		return err
	}
	for n := 0; n < c.Runs; n++ {
		seed := c.Seed + uint64(n)
		path := filepath.Join(folder, strconv.FormatUint(seed, 10)+".log")
		if err := c.oneRun(judge, header, seed, path, body); err != nil {
			return fmt.Errorf("run %d of %d, with seed %d: %w", n+1, c.Runs, seed, err)
		}
	}
	if c.Folder == "" {
		_ = os.Remove(folder) // what somebody has put into it stays
	}
	return nil
}

func (c Check) folder() (string, error) {
	if c.Folder == "" {
		return os.MkdirTemp("", "vyrd_")
	}
	return c.Folder, os.MkdirAll(c.Folder, 0o777)
}

func (c Check) oneRun(
	judge *judge, header Header, seed uint64, path string, body func(uint64, *Log),
) error {
	options := c.Log
	options.Seeded, options.Seed = true, seed
	log, err := Create(header, path, options)
	if err != nil {
		return err
	}
	fault, err := play(log, seed, c.Time, body)
	if err != nil {
		return err
	}
	verdict, err := judge.verdict(path)
	if err != nil {
		return err
	}
	if fault == "" && isEmpty(verdict) {
		fault = "the run logged nothing; "
	}
	if fault == "" && isAccepted(verdict) {
		return os.Remove(path)
	}
	explained := judge.explanation(path)
	return fmt.Errorf("%s%s\nThe log is kept: %s\n\n%s", fault, verdict, path, explained)
}

// play calls the body in a goroutine of its own, and finishes the log if it returns in time. It
// gives what went wrong, or nothing, and the error of a write.
func play(log *Log, seed uint64, limit time.Duration, body func(uint64, *Log)) (string, error) {
	ended := make(chan string, 1)
	go func() {
		fault := "the body ended its goroutine; "
		defer func() {
			if panicked := recover(); panicked != nil {
				fault = fmt.Sprintf("the body panicked: %v; ", panicked)
			}
			ended <- fault
		}()
		body(seed, log)
		fault = ""
	}()
	timer := time.NewTimer(limit)
	defer timer.Stop()
	select {
	case fault := <-ended:
		if fault == "" {
			return "", log.Finish()
		}
		return fault, log.Close()
	case <-timer.C:
		return fmt.Sprintf("the body hasn't returned after %v; ", limit), log.Flush()
	}
}
