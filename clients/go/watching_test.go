package keynoted

// Tests of questions that are kept, and of what answers hang on.

import (
	"errors"
	"fmt"
	"os/exec"
	"path/filepath"
	"strings"
	"testing"
)

func TestAQuestionIsKept(t *testing.T) {
	daemon, err := Connect(listening(t, "OK 1 7\n", "NEWS 0 no 7\n", "NEWS 1 yes 9\n", "NO 10 values\n", "NEWS 1 yes 9\n",
		"OK\n", "NO 12 unknown\n", "NOMEM\n"))
	check(t, err)
	session := opened(t, daemon)
	news, err := session.Watch("no", "yes")
	if err != nil || news.Index != 0 || news.Name() != "no" || news.Version != 7 {
		t.Fatal(news, err)
	}
	news, err = session.News()
	if allowed, wrong := news.AtLeast("yes"); err != nil || wrong != nil || !allowed || news.Version != 9 {
		t.Fatal(news, err, wrong)
	}
	if _, err := session.Watch("no"); !errors.Is(err, NoValues) {
		t.Error(err)
	}
	if news, err = session.News(); err != nil || fmt.Sprint(news.Values) != "[no yes]" {
		t.Error(news, err)
	}
	check(t, session.Unwatch())
	if _, err := session.News(); !errors.Is(err, NoUnknown) {
		t.Error(err)
	}
	if _, err := session.Watch("no", "yes"); err != NoMemory {
		t.Error(err)
	}
	if _, err := session.Watch("no", "ye,s"); !errors.Is(err, WrongArgument) {
		t.Error(err)
	}
}

func TestWhatAnAnswerHangsOn(t *testing.T) {
	daemon, err := Connect(listening(t, "OK 1 7\n", "CRITICAL 1 2\nNEED a12\nNEED p3\nEND\n", "CRITICAL 0 0\nEND\n",
		"NO 13 limit nodes 16385\n"))
	check(t, err)
	session := opened(t, daemon)
	critical, err := session.Critical("no", "yes")
	if err != nil || critical.Name() != "yes" || fmt.Sprint(critical.IDs) != "[a12 p3]" {
		t.Fatal(critical, err)
	}
	if critical, err = session.Critical("no", "yes"); err != nil || critical.Index != 0 || len(critical.IDs) != 0 {
		t.Error(critical, err)
	}
	var refusal *Refusal
	if _, err = session.Critical("no", "yes"); !errors.As(err, &refusal) || fmt.Sprint(refusal.Parts) != "[nodes 16385]" {
		t.Error(err)
	}
}

func TestWhatIsNoReplyToAQuestionEndsTheConnection(t *testing.T) {
	for _, reply := range []string{
		"OK\n", "NEWS 1 no 1\n", "NEWS 2 yes 1\n", "NEWS 1 yes\n", "NEWS 01 yes 1\n", "CRITICAL 2 0\nEND\n",
		"CRITICAL 1 1\nEND\n", "CRITICAL 1 1\nNEED a1\nNEED a2\nEND\n", "CRITICAL 1 1\nNEED 1\nEND\n",
		"CRITICAL 1 1\nNO 12 unknown\n", "CRITICAL 1 1\nNOMEM\n", "VALUE 1 yes 1 0\nEND\n",
	} {
		for _, asks := range []func(*Session) error{
			func(session *Session) error { _, err := session.Watch("no", "yes"); return err },
			func(session *Session) error { _, err := session.News(); return err },
			func(session *Session) error { _, err := session.Critical("no", "yes"); return err },
		} {
			daemon, err := Connect(listening(t, "OK 1 1\n", reply, "OK\n", "OK\n"))
			check(t, err)
			session := opened(t, daemon)
			if err := asks(session); !errors.Is(err, LinkEnded) {
				t.Errorf("%.40q: %v", reply, err)
			}
			if err := session.Clear(); err != LinkEnded {
				t.Errorf("%.40q: %v", reply, err)
			}
		}
	}
}

func TestQuestionsOverTheProgram(t *testing.T) {
	told := exec.Command(program(t), "ask", filepath.Join("/dev", "null"))
	told.Stdin = strings.NewReader("NEWS\n")
	if reply, _ := told.Output(); string(reply) != "NO 1 syntax\n" {
		t.Skip("the program has no NEWS")
	}
	daemon := started(t, policy)
	session := opened(t, daemon)
	check(t, daemon.Admin([]byte("s3cret")))
	check(t, session.Auth("bob"))
	news, err := session.Watch("no", "yes")
	if err != nil || news.Index != 0 || news.Version != 1 {
		t.Fatal(news, err)
	}
	_, _, err = daemon.Add(credential)
	check(t, err)
	check(t, session.Unauth("bob"))
	if news, err = session.News(); err != nil || news.Index != 1 || news.Version != 2 || session.Version() != 1 {
		t.Error(news, err, session.Version())
	}
	check(t, session.Auth("bob"))
	if critical, err := session.Critical("no", "yes"); err != nil || critical.Index != 0 || len(critical.IDs) != 0 {
		t.Error(critical, err)
	}
	_, err = session.Pin()
	check(t, err)
	if critical, err := session.Critical("no", "yes"); err != nil || fmt.Sprint(critical.IDs) != "[a1 a2]" {
		t.Error(critical, err)
	}
	check(t, session.Unwatch())
	if err := session.Unwatch(); !errors.Is(err, NoUnknown) {
		t.Error(err)
	}
}
