package keynoted

// Sessions, each request of which is an exchange of its own.

import (
	"context"
	"fmt"
	"regexp"
	"strconv"
	"strings"
)

// Session is a session of a connection: a version of the credentials, attributes, requesters and private assertions.
type Session struct {
	Number     int
	connection *Connection
	version    int      // under the connection's mutex
	watched    []string // the same: the values of the question that is kept
}

func (session *Session) ask(form *regexp.Regexp, block *string, word string, rest ...string) ([]string, error) {
	words := append([]string{word, strconv.Itoa(session.Number)}, rest...)
	return session.connection.askForm(form, block, words...)
}

func (session *Session) expectOK(word string, rest ...string) error {
	_, err := session.ask(okForm, nil, word, rest...)
	return err
}

// Version is the version of the credentials to which the session is pinned.
func (session *Session) Version() int {
	session.connection.mutex.Lock()
	defer session.connection.mutex.Unlock()
	return session.version
}

// Close ends the session.
func (session *Session) Close() error { return session.expectOK("CLOSE") }

// Pin pins the session to the newest version of the credentials, which it gives.
func (session *Session) Pin() (version int, err error) {
	parts, err := session.ask(versionForm, nil, "PIN")
	if err != nil {
		return 0, err
	}
	session.connection.mutex.Lock()
	defer session.connection.mutex.Unlock()
	session.version = numberOf(parts[1])
	return session.version, nil
}

// PinVersion pins the session to this version, which is one of the newest 16: the newest one.
func (session *Session) PinVersion(version int) (newest int, err error) {
	parts, err := session.ask(openedForm, nil, "PIN", strconv.Itoa(version))
	if err != nil {
		return 0, err
	}
	session.connection.mutex.Lock()
	defer session.connection.mutex.Unlock()
	session.version = numberOf(parts[1])
	return numberOf(parts[2]), nil
}

// Auth names a requesting principal.
func (session *Session) Auth(principal string) error { return session.expectOK("AUTH", principal) }

// Unauth takes a requesting principal away.
func (session *Session) Unauth(principal string) error { return session.expectOK("UNAUTH", principal) }

// Set gives an attribute a value without an end of line; SetBytes takes any.
func (session *Session) Set(name, value string) error { return session.expectOK("SET", name, value) }

// SetBytes gives an attribute a value of any bytes.
func (session *Session) SetBytes(name string, value []byte) error {
	return session.expectOK("SETX", name, fmt.Sprintf("%x", value))
}

// Unset takes an attribute away.
func (session *Session) Unset(name string) error { return session.expectOK("UNSET", name) }

// Clear takes all attributes and requesters away; version and private assertions stay.
func (session *Session) Clear() error { return session.expectOK("CLEAR") }

// AddPrivate adds a private assertion, which nobody verifies: its id.
func (session *Session) AddPrivate(text string) (id string, err error) {
	parts, err := session.ask(privateForm, &text, "ASSERT", strconv.Itoa(len(text)))
	if err != nil {
		return "", err
	}
	return parts[1], nil
}

// Retract takes a private assertion away.
func (session *Session) Retract(id string) error { return session.expectOK("RETRACT", id) }

// Query asks for the policy's value among these, of which the lowest is the first.
func (session *Session) Query(values ...string) (*Answer, error) {
	values, line, err := session.question("QUERY", values)
	if err != nil {
		return nil, err
	}
	var answer *Answer
	err = session.connection.exchange(context.Background(), line, func() (err error) {
		answer, err = session.connection.readAnswer(values)
		return err
	})
	return answer, err
}

// orderOf are the values of a query, where they are in the connection's order.
func (connection *Connection) orderOf(values []string) ([]string, error) {
	order := connection.Order
	if len(order) == 0 {
		return values, nil
	}
	if len(values) == 0 {
		return order, nil
	}
	rest := order
	for _, value := range values {
		for len(rest) > 0 && rest[0] != value {
			rest = rest[1:]
		}
		if len(rest) == 0 {
			return nil, wrongArgument("the values %q aren't in the order %q", values, order)
		}
		rest = rest[1:]
	}
	if values[0] != order[0] {
		return nil, wrongArgument("the values %q don't begin with the lowest, %q", values, order[0])
	}
	return values, nil
}

// question is the line that asks for one of these values, which are given too.
func (session *Session) question(word string, values []string) ([]string, string, error) {
	values, err := session.connection.orderOf(values)
	if err != nil {
		return nil, "", err
	}
	line, err := questionOf(word, session.Number, values)
	return values, line, err
}

// questionOf is the line that asks for one of these values: QUERY, WATCH or CRITICAL.
func questionOf(word string, number int, values []string) (string, error) {
	for _, value := range values {
		if strings.Contains(value, ",") {
			return "", wrongArgument("a comma would part the value in two: %q", value)
		}
	}
	return requestOf(nil, word, strconv.Itoa(number), strings.Join(values, ","))
}
