package keynoted

// Questions that are kept, and what answers hang on.

import (
	"context"
	"regexp"
	"strconv"
)

var (
	newsForm     = regexp.MustCompile(`^NEWS ` + number + ` ([!-+\--~]{1,128}) ` + number + `$`)
	criticalForm = regexp.MustCompile(`^CRITICAL ` + number + ` ` + number + `$`)
	needForm     = regexp.MustCompile(`^NEED ([ap]` + number + `)$`)
)

// News is what a question that is kept comes to at a version of the credentials. No rows prove it.
type News struct {
	Index   int
	Values  []string
	Version int
}

// Name is the name of the value. Compare by AtLeast.
func (news *News) Name() string { return news.Values[news.Index] }

// AtLeast says whether it is this value of the question or a higher one; it fails for a value of no such name.
func (news *News) AtLeast(value string) (bool, error) { return atLeast(news.Index, news.Values, value) }

// Critical is the value of a question, with the ids of the assertions without each of which it would be lower.
type Critical struct {
	Index  int
	Values []string
	IDs    []string
}

// Name is the name of the value. Compare by AtLeast.
func (critical *Critical) Name() string { return critical.Values[critical.Index] }

// AtLeast says whether it is this value of the question or a higher one; it fails for a value of no such name.
func (critical *Critical) AtLeast(value string) (bool, error) {
	return atLeast(critical.Index, critical.Values, value)
}

// Watch asks as Query does, and keeps the question: what is said to the session later changes nothing of it. The answer
// is that of the version to which the session is pinned.
func (session *Session) Watch(values ...string) (*News, error) {
	values, line, err := session.question("WATCH", values)
	if err != nil {
		return nil, err
	}
	var news *News
	err = session.connection.exchange(context.Background(), line, func() (err error) {
		news, err = session.connection.readNews(values)
		if err == nil {
			session.watched = news.Values
		}
		return err
	})
	return news, err
}

// News is what the question that Watch has kept comes to by the newest version.
func (session *Session) News() (*News, error) {
	var news *News
	line := "NEWS " + strconv.Itoa(session.Number) + "\n"
	err := session.connection.exchange(context.Background(), line, func() (err error) {
		news, err = session.connection.readNews(session.watched)
		return err
	})
	return news, err
}

// Unwatch ends the question that Watch has kept.
func (session *Session) Unwatch() error { return session.expectOK("UNWATCH") }

// Critical asks as Query does, and gives the value with what it hangs on.
func (session *Session) Critical(values ...string) (*Critical, error) {
	values, line, err := session.question("CRITICAL", values)
	if err != nil {
		return nil, err
	}
	var critical *Critical
	err = session.connection.exchange(context.Background(), line, func() (err error) {
		critical, err = session.connection.readCritical(values)
		return err
	})
	return critical, err
}

// readNews reads what a question of these values comes to.
func (connection *Connection) readNews(values []string) (*News, error) {
	parts, err := connection.readForm(newsForm)
	if err != nil {
		return nil, err
	}
	index, err := indexOf(parts[0], values, parts[1], parts[2])
	if err != nil {
		return nil, err
	}
	return &News{index, append([]string(nil), values...), numberOf(parts[3])}, nil
}

// readCritical reads a whole reply to a question of these values.
func (connection *Connection) readCritical(values []string) (*Critical, error) {
	head, err := connection.readForm(criticalForm)
	if err != nil {
		return nil, err
	}
	index, wrong := indexOf(head[0], values, head[1], "")
	critical := &Critical{index, append([]string(nil), values...), []string{}}
	for count := numberOf(head[2]); count > 0; count-- {
		parts, err := connection.readRest(needForm)
		if err != nil {
			return nil, err
		}
		critical.IDs = append(critical.IDs, parts[1])
	}
	if _, err := connection.readRest(endForm); err != nil {
		return nil, err
	}
	if wrong != nil {
		return nil, wrong
	}
	return critical, nil
}
