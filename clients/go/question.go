package keynoted

// A question that is asked at once.

import (
	"context"
	"fmt"
	"sort"
	"strconv"
	"strings"
)

// Question is all that one answer depends on, but for the shared credentials.
type Question struct {
	Principals []string          // who asks
	Attributes map[string]string // of the action; values may have any bytes
	Values     []string          // the lowest first
	Private    []string          // the texts of private assertions
}

// Ask asks one question in one write, by the newest version of the credentials, in a session of its own: nothing of one
// question is left for the next. The first refusal of one of its requests is the error. A context that ends while the
// replies are awaited ends the connection.
func (connection *Connection) Ask(ctx context.Context, question Question) (*Answer, error) {
	values, err := connection.orderOf(question.Values)
	if err != nil {
		return nil, err
	}
	question.Values = values
	var requests []string
	var answer *Answer
	err = connection.exchangeMade(ctx, func() (string, error) {
		requests, err = question.requests(connection.opened + 1)
		return strings.Join(requests, ""), err
	}, func() error {
		answer, err = connection.readQuestion(len(requests), values)
		return err
	})
	if err != nil {
		return nil, err
	}
	return answer, nil
}

// readQuestion reads the replies to the requests of a question: to OPEN, to those that name what it depends on, to
// QUERY, and to CLOSE. All are read, also where one is a refusal, and the first that isn't OK is the error.
func (connection *Connection) readQuestion(count int, values []string) (answer *Answer, first error) {
	for at := 0; at < count; at++ {
		var err error
		switch at {
		case 0:
			_, _, err = connection.readOpened()
		case count - 2:
			answer, err = connection.readAnswer(values)
		default:
			_, err = connection.readForm(settledForm)
		}
		if !isWhole(err) {
			return nil, err
		}
		if first == nil {
			first = err
		}
	}
	return answer, first
}

// requests are the lines and blocks of the question in a new session, which has this number.
func (question *Question) requests(number int) ([]string, error) {
	session := strconv.Itoa(number)
	requests := []string{"OPEN\n"}
	for _, words := range question.words(session) {
		request, err := requestOf(nil, words...)
		if err != nil {
			return nil, err
		}
		requests = append(requests, request)
	}
	for at := range question.Private {
		text := question.Private[at]
		requests = append(requests, fmt.Sprintf("ASSERT %s %d\n%s\n", session, len(text), text))
	}
	query, err := questionOf("QUERY", number, question.Values)
	return append(requests, query, "CLOSE "+session+"\n"), err
}

// words are those of the lines that name attributes, in the order of their names, and principals.
func (question *Question) words(session string) (lines [][]string) {
	names := make([]string, 0, len(question.Attributes))
	for name := range question.Attributes {
		names = append(names, name)
	}
	sort.Strings(names)
	for _, name := range names {
		value := question.Attributes[name]
		if strings.ContainsAny(value, "\r\n") {
			lines = append(lines, []string{"SETX", session, name, fmt.Sprintf("%x", value)})
			continue
		}
		lines = append(lines, []string{"SET", session, name, value})
	}
	for _, principal := range question.Principals {
		lines = append(lines, []string{"AUTH", session, principal})
	}
	return lines
}
