package vyrdlog

import (
	"bytes"
	"errors"
	"fmt"
	"os"
	"os/exec"
	"path/filepath"
	"strings"
)

// What the line of a verdict begins with, by the program's status.
var verdicts = []string{"accepted: ", "violation at line ", "malformed at line "}

func isAccepted(verdict string) bool { return strings.HasPrefix(verdict, verdicts[0]) }

func isEmpty(verdict string) bool { return strings.HasPrefix(verdict, verdicts[0]+"0 entries") }

// judge is the program that judges a log, and what explains its answers.
type judge struct{ program, explain string }

func newJudge(program, explain string) (*judge, error) {
	if program == "" {
		program = os.Getenv("VYRD")
	}
	if program == "" {
		return nil, errors.New(
			"no program judges the logs: the variable VYRD or the option Program is to name it")
	}
	found, err := exec.LookPath(program)
	if err != nil {
		return nil, fmt.Errorf("the program that judges the logs can't be run: %s", program)
	}
	if explain == "" {
		explain = os.Getenv("VYRD_EXPLAIN")
	}
	if explain == "" {
		resolved, err := filepath.EvalSymlinks(found)
		if err != nil {
			return nil, err
		}
		explain = filepath.Join(filepath.Dir(resolved), "tools", "explain")
	}
	return &judge{found, explain}, nil
}

// verdict is what the program says of a log, or what it said where it gave no verdict.
func (j *judge) verdict(path string) (string, error) {
	log, err := os.Open(path)
	if err != nil {
		return "", err
	}
	defer log.Close()
	var out, errs bytes.Buffer
	command := exec.Command(j.program, "check")
	command.Stdin, command.Stdout, command.Stderr = log, &out, &errs
	var failed *exec.ExitError
	if err := command.Run(); err != nil && !errors.As(err, &failed) {
		return "", err
	}
	line, status := strings.TrimSpace(out.String()), command.ProcessState.ExitCode()
	if status >= 0 && status < len(verdicts) && strings.HasPrefix(line, verdicts[status]) {
		return line, nil
	}
	said := strings.TrimSpace(line + " " + errs.String())
	return fmt.Sprintf("%s gave no verdict, ended with status %d, and said: %s", j.program, status,
		said), nil
}

// explanation is what is said more of a log, or why nothing is.
func (j *judge) explanation(path string) string {
	if _, err := os.Stat(j.explain); err != nil {
		return "Nothing explains it: there is no " + j.explain
	}
	command := exec.Command(j.explain, path)
	command.Env = append(os.Environ(), "VYRD="+j.program)
	said, err := command.CombinedOutput()
	if len(said) == 0 && err != nil {
		return "Nothing explains it: " + err.Error()
	}
	return strings.TrimSpace(string(said))
}
