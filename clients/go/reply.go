package keynoted

// Reading the daemon's replies, and the answer to a query.

import (
	"fmt"
	"regexp"
	"strconv"
	"strings"
)

const number = `(0|[1-9][0-9]{0,8})`

var (
	okForm      = regexp.MustCompile(`^OK$`)
	openedForm  = regexp.MustCompile(`^OK ` + number + ` ` + number + `$`)
	versionForm = regexp.MustCompile(`^OK ` + number + `$`)
	addedForm   = regexp.MustCompile(`^OK (a` + number + `) ` + number + `$`)
	privateForm = regexp.MustCompile(`^OK (p` + number + `)$`)
	settledForm = regexp.MustCompile(`^OK(?: p` + number + `)?$`)
	endForm     = regexp.MustCompile(`^END$`)
	valueForm   = regexp.MustCompile(`^VALUE ` + number + ` ([!-+\--~]{1,128}) ` + number + ` ` + number + `$`)
	rowForm     = regexp.MustCompile(`^ROW ` + number + ` ([ap]` + number + `) "((?:[ !#-\[\]-~]|\\["\\]|\\[0-7]{3})*)"$`)
	escapeForm  = regexp.MustCompile(`\\([0-7]{3}|["\\])`)
)

// Row is a row of a proof: this assertion gives its authorizer this level.
type Row struct {
	Level     int
	ID        string
	Principal string
}

// Answer is the value of a query, by its index among the query's values, with the rows that prove it.
type Answer struct {
	Index   int
	Values  []string
	Version int
	Rows    []Row
}

// Name is the name of the value. Compare by AtLeast.
func (answer *Answer) Name() string { return answer.Values[answer.Index] }

// AtLeast says whether the answer is this value of the query or a higher one; it fails for a value of no such name.
func (answer *Answer) AtLeast(value string) (bool, error) {
	return atLeast(answer.Index, answer.Values, value)
}

func atLeast(found int, values []string, value string) (bool, error) {
	for index, name := range values {
		if name == value {
			return found >= index, nil
		}
	}
	return false, wrongArgument("%q is none of the query's values %s", value, strings.Join(values, ","))
}

// readLine reads the next line of the daemon's: a refusal is an error.
func (connection *Connection) readLine() (string, error) {
	bytes, err := connection.reader.ReadSlice('\n')
	if err != nil {
		return "", fmt.Errorf("%w: %s", LinkEnded, partOf(string(bytes), err))
	}
	line := string(bytes[:len(bytes)-1])
	if line == "NOMEM" {
		return "", NoMemory
	}
	if refusal := refusalOf(line); refusal != nil {
		return "", refusal
	}
	return line, nil
}

// partOf says what was there of a line, as the daemon's own words at its end, or why there is nothing.
func partOf(line string, err error) string {
	if line != "" {
		return strconv.Quote(line)
	}
	return "no reply: " + err.Error()
}

// readForm reads a line of this form, and gives its parts.
func (connection *Connection) readForm(form *regexp.Regexp) ([]string, error) {
	line, err := connection.readLine()
	if err != nil {
		return nil, err
	}
	parts := form.FindStringSubmatch(line)
	if parts == nil {
		return nil, fmt.Errorf("%w: %s", LinkEnded, line)
	}
	return parts, nil
}

// indexOf is the index that a line tells, of one of these values, which has to have this name where one is told.
func indexOf(line string, values []string, digits, name string) (int, error) {
	index := numberOf(digits)
	if index >= len(values) || name != "" && values[index] != name {
		return 0, fmt.Errorf("%w: %s", LinkEnded, line)
	}
	return index, nil
}

// readAnswer reads a whole reply to a query of these values.
func (connection *Connection) readAnswer(values []string) (*Answer, error) {
	head, err := connection.readForm(valueForm)
	if err != nil {
		return nil, err
	}
	index, wrong := indexOf(head[0], values, head[1], head[2])
	answer := &Answer{Index: index, Values: append([]string(nil), values...), Version: numberOf(head[3])}
	for rows := numberOf(head[4]); rows > 0; rows-- {
		parts, err := connection.readRest(rowForm)
		if err != nil {
			return nil, err
		}
		answer.Rows = append(answer.Rows, Row{numberOf(parts[1]), parts[2], unescape(parts[4])})
	}
	if _, err := connection.readRest(endForm); err != nil {
		return nil, err
	}
	if wrong != nil {
		return nil, wrong
	}
	return answer, nil
}

// readRest reads a line within a reply, where a refusal or NOMEM is no reply.
func (connection *Connection) readRest(form *regexp.Regexp) ([]string, error) {
	parts, err := connection.readForm(form)
	if err != nil && isWhole(err) {
		return nil, fmt.Errorf("%w: %v", LinkEnded, err)
	}
	return parts, err
}

// numberOf is the value of digits that a form has let through.
func numberOf(digits string) int {
	value, _ := strconv.Atoi(digits)
	return value
}

func unescape(text string) string {
	return escapeForm.ReplaceAllStringFunc(text, func(escape string) string {
		if len(escape) == 2 {
			return escape[1:]
		}
		value, _ := strconv.ParseUint(escape[1:], 8, 16)
		return string([]byte{byte(value)})
	})
}
