package vyrdlog

import (
	"errors"
	"fmt"
	"os"
	"sort"
	"strings"
)

// Header is the first lines of a log. What is wrong with one is said when the log is opened.
type Header struct {
	version int
	subject string
	size    int
	callers int
	start   map[uint32]uint64
	text    string
	isText  bool
	err     error // of reading a specification
}

// NewHeader is `vyrd VERSION SUBJECT SIZE CALLERS`: the version is 1 or 2, the subject `multiset`,
// `cache`, `tree` or `buffers`, the size from 1 to 1,024, and the callers are from 1 to 64.
func NewHeader(version int, subject string, size, callers int) Header {
	return Header{version: version, subject: subject, size: size, callers: callers}
}

// StartHeader is a header of version 2, with the words that aren't 0 where the log begins, by their
// numbers. Those of a value 0 are left out.
func StartHeader(subject string, size, callers int, start map[uint32]uint64) Header {
	return Header{version: 2, subject: subject, size: size, callers: callers, start: start}
}

// TextHeader is lines for the log to begin with as they are, for a header that this package doesn't
// know. `callers` is how many handles the log hands out at a time, from 1 on.
func TextHeader(lines string, callers int) Header {
	return Header{text: lines, isText: true, callers: callers}
}

// OwnHeader is a header of version 3: a specification of your own, which stands in front of the log.
// It is the text of a file `.spec`, from the line `vyrd 3 own WORDS CALLERS` to the line `log`. There
// are up to 65,536 words, and from 1 to 256 callers. What stands between the two lines is for `vyrd
// check` to judge.
func OwnHeader(specification string) Header {
	text := strings.TrimSuffix(specification, "\n") + "\n"
	first, _, _ := strings.Cut(text, "\n")
	words, callers := 0, 0
	fmt.Sscanf(first, "vyrd 3 own %d %d", &words, &callers) // what is no header differs from the next
	header := Header{version: 3, size: words, callers: callers, text: text}
	begins := first == fmt.Sprintf("vyrd 3 own %d %d", words, callers)
	ends := strings.HasSuffix(text, "\nlog\n")
	if strings.Contains(text, "\r\n") && !(begins && ends) {
		header.err = errors.New("a line of the specification ends with a carriage return: " +
			"lines end with a line feed alone")
	} else if !begins || words < 0 || words > 65536 || callers < 1 || callers > 256 {
		header.err = errors.New("a specification begins with the line `vyrd 3 own WORDS CALLERS`, " +
			"with up to 65,536 words and from 1 to 256 callers")
	} else if !ends {
		header.err = errors.New("a specification ends with the line `log`")
	}
	return header
}

// OwnHeaderFile is the same, with the file's path.
func OwnHeaderFile(path string) Header {
	specification, err := os.ReadFile(path)
	if err != nil {
		return Header{version: 3, err: err}
	}
	return OwnHeader(string(specification))
}

// WithStart is the same header with the words that aren't 0 where the log begins, as [StartHeader]
// has them: for version 3.
func (h Header) WithStart(start map[uint32]uint64) Header {
	if h.version < 2 {
		h.err = errors.New("words at the start are of versions 2 and 3")
	}
	h.start = start
	return h
}

// Callers is how many callers there are: their numbers are below this.
func (h Header) Callers() int { return h.callers }

// Lines is the lines, each with its line feed, or what is wrong with the header.
func (h Header) Lines() (string, error) {
	if h.isText {
		return h.asText()
	}
	switch {
	case h.err != nil:
		return "", h.err
	case h.version == 3 && h.text != "":
		return h.text + h.starting(), nil
	case h.version != 1 && h.version != 2:
		return "", errors.New("the version of a log is 1 or 2")
	case !isSubject(h.subject):
		return "", errors.New("no subject of a log: " + h.subject)
	case h.size < 1 || h.size > 1024:
		return "", errors.New("the size of a log is from 1 to 1,024")
	case h.callers < 1 || h.callers > 64:
		return "", errors.New("the callers of a log are from 1 to 64")
	}
	first := fmt.Sprintf("vyrd %d %s %d %d\n", h.version, h.subject, h.size, h.callers)
	return first + h.starting(), nil
}

func (h Header) asText() (string, error) {
	if h.text == "" {
		return "", errors.New("a log has a header")
	}
	if h.callers < 1 {
		return "", errors.New("the callers of a log are from 1 on")
	}
	return strings.TrimSuffix(h.text, "\n") + "\n", nil
}

// lineBytes is how many bytes a line of the log may have.
func (h Header) lineBytes() int {
	if h.version == 3 {
		return ownLineBytes
	}
	return lineBytes
}

func (h Header) starting() string {
	var words []uint32
	for word, value := range h.start {
		if value != 0 {
			words = append(words, word)
		}
	}
	sort.Slice(words, func(i, j int) bool { return words[i] < words[j] })
	var lines strings.Builder
	for _, word := range words {
		fmt.Fprintf(&lines, "start %d %d\n", word, h.start[word])
	}
	return lines.String()
}

func isSubject(word string) bool {
	switch word {
	case "multiset", "cache", "tree", "buffers":
		return true
	}
	return false
}
