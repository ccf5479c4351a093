// Many runs in a test: what is accepted, what isn't, and what is said then. The variable VYRD names
// the program, and VYRD_EXPLAIN what explains its answers.
package bag

import (
	"fmt"
	"os"
	"path/filepath"
	"runtime"
	"strings"
	"testing"
	"time"
	"vyrdlog"
)

var header = vyrdlog.NewHeader(1, "multiset", 1, 4)

func correct(seed uint64, log *vyrdlog.Log) { Together(log, 4, int64(seed)) }

// A test that keeps what it fails with.
type failing struct{ said string }

func (*failing) Helper() {}

func (f *failing) Fatal(arguments ...any) { f.said = fmt.Sprint(arguments...) }

func failure(check vyrdlog.Check, body func(uint64, *vyrdlog.Log)) string {
	var test failing
	vyrdlog.CheckRuns(&test, header, check, body)
	return test.said
}

func contains(t *testing.T, text, wanted string) {
	t.Helper()
	if !strings.Contains(text, wanted) {
		t.Errorf("got: %s\nwanted: %s", text, wanted)
	}
}

func TestACorrectStructurePasses(t *testing.T) {
	folder := t.TempDir()
	next := uint64(5)
	vyrdlog.CheckRuns(t, header, vyrdlog.Check{Seed: 5, Folder: folder},
		func(seed uint64, log *vyrdlog.Log) {
			if seed != next {
				t.Errorf("seed %d, and not %d", seed, next)
			}
			next++
			correct(seed, log)
		})
	if next != 25 {
		t.Errorf("%d runs", next-5)
	}
	if left, err := os.ReadDir(folder); err != nil || len(left) > 0 {
		t.Errorf("left in the folder: %v", left)
	}
}

func TestABrokenOneFailsWithWhatExplainSays(t *testing.T) {
	folder := t.TempDir()
	said := failure(vyrdlog.Check{Folder: folder}, func(seed uint64, log *vyrdlog.Log) {
		if seed == 3 {
			Interrupted(log)
		} else {
			correct(seed, log)
		}
	})
	log := filepath.Join(folder, "3.log")
	verdict := "violation at line 10: view differs at key 6\n"
	kept := "The log is kept: " + log + "\n\n"
	contains(t, said, "run 3 of 20, with seed 3: "+verdict+kept+verdict)
	contains(t, said, "\n  line 8: caller 0, slot 0 value 6 -> 5; shown once -> not at all\n")
	text, err := os.ReadFile(log)
	if err != nil || !strings.HasSuffix(string(text), "\nend\n") {
		t.Errorf("the log that is kept: %v %s", err, text)
	}
}

func TestARunThatLogsNothingFails(t *testing.T) {
	folder := t.TempDir()
	said := failure(vyrdlog.Check{Folder: folder}, func(seed uint64, log *vyrdlog.Log) {
		callerOf(log).Step(func(*vyrdlog.Lines) {})
	})
	log := filepath.Join(folder, "1.log")
	contains(t, said, "run 1 of 20, with seed 1: the run logged nothing; accepted: 0 entries, 0 commits, "+
		"0 observers\nThe log is kept: "+log+"\n")
	// A step without a line writes nothing.
	if text, err := os.ReadFile(log); err != nil || string(text) != "vyrd 1 multiset 1 4\nend\n" {
		t.Errorf("the log that is kept: %v %s", err, text)
	}
}

// A body that begins a call, and then does something else than to return.
func fails(t *testing.T, sentence string, check vyrdlog.Check, then func()) {
	t.Helper()
	check.Folder = t.TempDir()
	said := failure(check, func(seed uint64, log *vyrdlog.Log) {
		callerOf(log).Call("insert", 5)
		then()
	})
	contains(t, said, "run 1 of 20, with seed 1: "+sentence+"; malformed at line 3: no end\n")
	text, err := os.ReadFile(filepath.Join(check.Folder, "1.log"))
	if err != nil || string(text) != "vyrd 1 multiset 1 4\n0 call insert 5\n" {
		t.Errorf("the log that is kept: %v %s", err, text)
	}
}

func TestABodyThatDoesNotReturn(t *testing.T) {
	fails(t, "the body panicked: by the test", vyrdlog.Check{}, func() { panic("by the test") })
	fails(t, "the body ended its goroutine", vyrdlog.Check{}, runtime.Goexit)
	fails(t, "the body hasn't returned after 2s", vyrdlog.Check{Time: 2 * time.Second},
		func() { select {} })
}

func TestAProgramThatIsNotThereOrGivesNoVerdict(t *testing.T) {
	said := failure(vyrdlog.Check{Program: "/no/vyrd"}, correct)
	contains(t, said, "the program that judges the logs can't be run: /no/vyrd")
	check := vyrdlog.Check{Program: "false", Explain: "/no/explain", Folder: t.TempDir()}
	said = failure(check, correct)
	contains(t, said, "false gave no verdict, ended with status 1, and said: \n")
	contains(t, said, "\nNothing explains it: there is no /no/explain")
	t.Setenv("VYRD", "")
	contains(t, failure(vyrdlog.Check{}, correct), "no program judges the logs: the variable VYRD")
}
