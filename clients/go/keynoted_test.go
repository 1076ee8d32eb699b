package keynoted

// Tests against a built program: KEYNOTED=PROGRAM go test.

import (
	"bufio"
	"bytes"
	"context"
	"errors"
	"fmt"
	"math/rand"
	"net"
	"os"
	"os/exec"
	"path/filepath"
	"sort"
	"strings"
	"sync"
	"testing"
	"time"
)

const (
	policy     = "Authorizer: \"POLICY\"\nLicensees: \"alice\"\n"
	credential = "Authorizer: \"alice\"\nLicensees: \"bob\"\n"
)

func program(t *testing.T) string {
	t.Helper()
	name := os.Getenv("KEYNOTED")
	if name == "" {
		t.Fatal("KEYNOTED names no program")
	}
	return name
}

func write(t *testing.T, name, text string) string {
	t.Helper()
	path := filepath.Join(t.TempDir(), name)
	if err := os.WriteFile(path, []byte(text), 0o600); err != nil {
		t.Fatal(err)
	}
	return path
}

// started is a daemon over this policy, with a key of alice and the secret s3cret.
func started(t *testing.T, text string) *Connection {
	t.Helper()
	program(t)
	keys := write(t, "keys", "mac 0b0b alice\nsecret 733363726574\ndigest "+digest+"\n")
	daemon, err := Start(write(t, "p.kn", text), keys)
	if err != nil {
		t.Fatal(err)
	}
	t.Cleanup(func() { daemon.Close() })
	return daemon
}

// digest is the SHA-256 of credential.
const digest = "3a2fddf6b9c0c453599be733a55a62f5ec7aeedc4e45ab821977ad4d9583376a"

func opened(t *testing.T, daemon *Connection) *Session {
	t.Helper()
	session, err := daemon.Session()
	if err != nil {
		t.Fatal(err)
	}
	return session
}

func check(t *testing.T, err error) {
	t.Helper()
	if err != nil {
		t.Fatal(err)
	}
}

func TestTalk(t *testing.T) {
	daemon := started(t, policy)
	session := opened(t, daemon)
	check(t, session.Auth("bob"))
	check(t, session.Set("x", "a value"))
	check(t, session.SetBytes("y", []byte("a\nb\r")))
	check(t, session.Unset("x"))
	answer, err := session.Query("no", "yes")
	check(t, err)
	if answer.Index != 0 || answer.Name() != "no" || len(answer.Rows) != 0 {
		t.Fatalf("%+v", answer)
	}
	id, err := session.AddPrivate(credential)
	check(t, err)
	answer, err = session.Query("no", "yes")
	check(t, err)
	if id != "p1" || answer.Index != 1 || fmt.Sprint(answer.Rows) != "[{1 p1 alice} {1 a1 POLICY}]" {
		t.Fatalf("%s %+v", id, answer)
	}
	check(t, session.Retract(id))
	check(t, session.Unauth("bob"))
	check(t, session.Clear())
	check(t, daemon.Admin([]byte("s3cret")))
	name, version, err := daemon.Add(credential)
	check(t, err)
	if name != "a2" || version != 2 || session.Version() != 1 {
		t.Fatal(name, version, session.Version())
	}
	version, err = session.Pin()
	check(t, err)
	if version != 2 || session.Version() != 2 {
		t.Fatal(version, session.Version())
	}
	version, err = daemon.Drop("a2")
	check(t, err)
	if version != 3 {
		t.Fatal(version)
	}
	check(t, session.Close())
	check(t, daemon.Close())
	if _, err := daemon.Session(); !errors.Is(err, LinkEnded) {
		t.Fatal(err)
	}
}

func TestRefusalsHaveTheirCodes(t *testing.T) {
	daemon := started(t, policy)
	session, gone := opened(t, daemon), opened(t, daemon)
	check(t, gone.Close())
	private := func(text string) error { _, err := session.AddPrivate(text); return err }
	query := func(values ...string) error { _, err := session.Query(values...); return err }
	sessions := func() (err error) {
		for err == nil {
			_, err = daemon.Session()
		}
		return err
	}
	for _, row := range []struct {
		wanted Code
		found  error
	}{
		{NoSession, gone.Clear()},
		{NoAdmin, daemon.Admin([]byte("wrong"))},
		{NoRead, private("Authorizer: \"a\"\nLicensees: 2-of(\"b\")\n")},
		{NoPolicy, private(policy)},
		{NoName, session.Set("_x", "1")},
		{NoValue, session.Set("x", strings.Repeat("1", 4097))},
		{NoValues, query("yes")},
		{NoPrincipal, session.Auth("POLICY")},
		{NoUnknown, session.Unset("x")},
		{NoLong, session.Set("x", strings.Repeat("1", 9000))},
		{NoLimit, sessions()},
	} {
		var refusal *Refusal
		if !errors.Is(row.found, row.wanted) || !errors.As(row.found, &refusal) || errors.Is(row.found, NoBlock) {
			t.Errorf("%d: %v", row.wanted, row.found)
		} else if refusal.Code != row.wanted || !strings.HasPrefix(refusal.Line, fmt.Sprintf("NO %d", row.wanted)) {
			t.Errorf("%d: %+v", row.wanted, refusal)
		}
	}
	check(t, daemon.Admin([]byte("s3cret")))
	if _, _, err := daemon.Add("Authorizer: \"alice\"\nLicensees: \"carol\"\n"); !errors.Is(err, NoAuth) {
		t.Error(err)
	}
	if _, _, err := daemon.Add(strings.Repeat(" ", 16385)); !errors.Is(err, NoBlock) {
		t.Error(err)
	}
	if err := session.Clear(); !errors.Is(err, LinkEnded) {
		t.Error(err)
	}
	if len(causes) != 19 {
		t.Error(len(causes))
	}
}

func TestWhatWouldBeAnotherRequestIsNotSent(t *testing.T) {
	daemon := started(t, policy)
	session := opened(t, daemon)
	_, comma := session.Query("no,yes", "maybe")
	_, line := session.Query("no", "yes\nAUTH 1 alice")
	_, drop := daemon.Drop("a1\nAUTH 1 alice")
	values := []string{"no", "yes"}
	_, asked := daemon.Ask(context.Background(), Question{Principals: []string{"bob\nAUTH 2 alice"}, Values: values})
	_, named := daemon.Ask(context.Background(), Question{Attributes: map[string]string{"x 1\n": ""}, Values: values})
	for at, err := range []error{
		comma, line, drop, asked, named, session.Auth("bob\nAUTH 1 alice"), session.Auth("alice\r"),
		session.Set("x", "1\nAUTH 1 alice"), session.Set("x y", "1"), session.Set("", "1"),
		session.Unset("x\nAUTH 1 alice"), session.Retract("p1\nAUTH 1 alice"),
	} {
		if !errors.Is(err, WrongArgument) {
			t.Errorf("%d: %v", at, err)
		}
	}
	answer, err := session.Query("no", "yes")
	check(t, err)
	if answer.Index != 0 {
		t.Error(answer)
	}
}

func TestAskLeavesNothingBehind(t *testing.T) {
	daemon := started(t, policy+"Conditions: note == \"a\\nb\" || page == \"public\";\n")
	values := []string{"no", "yes"}
	index := func(question Question) int {
		t.Helper()
		question.Values = values
		answer, err := daemon.Ask(context.Background(), question)
		check(t, err)
		return answer.Index
	}
	note := map[string]string{"note": "a\nb"}
	all := Question{Principals: []string{"bob"}, Attributes: note, Private: []string{credential}}
	for round := 0; round < 40; round++ {
		found := []int{
			index(all),
			index(Question{Principals: all.Principals, Attributes: all.Attributes}),
			index(Question{Principals: all.Principals, Private: all.Private}),
			index(Question{Attributes: all.Attributes, Private: all.Private}),
			index(Question{Principals: []string{"alice"}, Attributes: map[string]string{"page": "public"}}),
		}
		if fmt.Sprint(found) != "[1 0 0 0 1]" {
			t.Fatal(round, found)
		}
	}
	// a refusal within a question is its error, and the connection goes on
	refused := []Question{
		{Principals: []string{"POLICY"}, Values: values}, {Attributes: map[string]string{"_x": "1"}, Values: values},
		{Private: []string{"nothing"}, Values: values}, {Values: []string{"yes"}},
	}
	for at, code := range []Code{NoPrincipal, NoName, NoRead, NoValues} {
		if answer, err := daemon.Ask(context.Background(), refused[at]); !errors.Is(err, code) || answer != nil {
			t.Error(at, answer, err)
		}
	}
	if index(all) != 1 {
		t.Error("the connection doesn't go on")
	}
}

func TestAnswersGoByTheirIndex(t *testing.T) {
	answer := Answer{Index: 1, Values: []string{"b", "a", "c"}}
	for value, wanted := range map[string]bool{"b": true, "a": true, "c": false} {
		if found, err := answer.AtLeast(value); err != nil || found != wanted {
			t.Error(value, found, err)
		}
	}
	if _, err := answer.AtLeast("d"); !errors.Is(err, WrongArgument) {
		t.Error(err)
	}
}

func TestAnOrderOfValuesIsKept(t *testing.T) {
	daemon := started(t, policy)
	session := opened(t, daemon)
	daemon.Order = []string{"no", "log", "yes"}
	for _, values := range [][]string{{"yes", "no"}, {"log", "yes"}, {"no", "yes", "log"}, {"no", "maybe"}, {"no", "no"}} {
		_, asked := daemon.Ask(context.Background(), Question{Values: values})
		_, queried := session.Query(values...)
		if !errors.Is(asked, WrongArgument) || !errors.Is(queried, WrongArgument) {
			t.Error(values, asked, queried)
		}
	}
	for wanted, values := range map[int][]string{3: nil, 2: {"no", "yes"}} {
		answer, err := daemon.Ask(context.Background(), Question{Principals: []string{"alice"}, Values: values})
		check(t, err)
		if len(answer.Values) != wanted || answer.Name() != "yes" {
			t.Error(values, answer)
		}
	}
}

func TestGoroutinesShareAConnection(t *testing.T) {
	daemon := started(t, policy)
	values := []string{"no", "yes"}
	ask := func(principal string, wanted int) error {
		answer, err := daemon.Ask(context.Background(), Question{Principals: []string{principal}, Values: values})
		if err == nil && answer.Index != wanted {
			err = fmt.Errorf("%s has %s", principal, answer.Name())
		}
		return err
	}
	var group sync.WaitGroup
	for goroutine := 0; goroutine < 4; goroutine++ {
		principal, wanted := "alice", 1
		if goroutine%2 == 1 {
			principal, wanted = "mallory", 0
		}
		group.Add(1)
		go func() {
			defer group.Done()
			for round := 0; round < 500; round++ {
				if err := ask(principal, wanted); err != nil {
					t.Error(err)
					return
				}
			}
		}()
	}
	group.Wait()
}

// timeOfOne is how long the first question to a new daemon takes, in the middle of some.
func timeOfOne(t *testing.T, path string) time.Duration {
	t.Helper()
	times := make([]time.Duration, 9)
	for at := range times {
		daemon, err := Start(path, "")
		check(t, err)
		start := time.Now()
		_, err = daemon.Ask(context.Background(), Question{Values: []string{"no", "yes"}})
		check(t, err)
		times[at] = time.Since(start)
		daemon.Close()
	}
	sort.Slice(times, func(a, b int) bool { return times[a] < times[b] })
	return times[len(times)/2]
}

func TestAnInterruptedExchangeEndsTheConnection(t *testing.T) {
	path := write(t, "p.kn", policy)
	program(t)
	interrupted, answered, values, longest := 0, 0, []string{"no", "yes"}, 2*timeOfOne(t, path)
	for round := 0; round < 1000; round++ {
		daemon, err := Start(path, "")
		check(t, err)
		ctx, cancel := context.WithTimeout(context.Background(), time.Duration(rand.Int63n(int64(longest))))
		_, err = daemon.Ask(ctx, Question{Principals: []string{"alice"}, Values: values})
		cancel()
		if errors.Is(err, LinkEnded) {
			interrupted++
		}
		answer, second := daemon.Ask(context.Background(), Question{Principals: []string{"mallory"}, Values: values})
		switch {
		case errors.Is(err, LinkEnded) != errors.Is(second, LinkEnded):
			t.Fatal(err, second)
		case second == nil && answer.Index != 0:
			t.Fatal("mallory has write")
		case second == nil:
			answered++
		}
		daemon.Close()
	}
	if interrupted < 20 || answered < 20 {
		t.Fatal(interrupted, answered)
	}
}

// listening is a listener that answers the first lines of each connection by these texts, and then reads on.
func listening(t *testing.T, replies ...string) string {
	t.Helper()
	listener, err := net.Listen("tcp", "127.0.0.1:0")
	check(t, err)
	t.Cleanup(func() { listener.Close() })
	go func() {
		for {
			link, err := listener.Accept()
			if err != nil {
				return
			}
			go func() {
				lines := bufio.NewScanner(link)
				for at := 0; lines.Scan(); at++ {
					if at < len(replies) {
						link.Write([]byte(replies[at]))
					}
				}
				link.Close()
			}()
		}
	}()
	return listener.Addr().String()
}

func TestASilentDaemonMeetsTheTimeLimit(t *testing.T) {
	daemon, err := ConnectTimeout(listening(t, "OK 1 1\n"), 200*time.Millisecond)
	check(t, err)
	session := opened(t, daemon)
	start := time.Now()
	if _, err := session.Query("no", "yes"); !errors.Is(err, LinkEnded) || time.Since(start) > 2*time.Second {
		t.Fatal(err, time.Since(start))
	}
	if err := session.Clear(); err != LinkEnded {
		t.Fatal(err)
	}
}

func TestWhatIsNoReplyEndsTheConnection(t *testing.T) {
	for _, reply := range []string{
		"OK\n", "VALUE 1 yes 1 1\nROW 1 a1 \"POLICY\"\nOK\n", "VALUE 2 yes 1 0\nEND\n", "VALUE 0 yes 1 0\nEND\n",
		"VALUE 1 YES 1 0\nEND\n", "VALUE 01 yes 1 0\nEND\n", "VALUE 1 yes 1 1\nROW 1 a1 POLICY\nEND\n", "NO 3 limit\n",
		"VALUE 1 yes 1 0\nNO 3 session\n", "VALUE 1 yes 1 0\nNOMEM\n", "NO 16 batch\n", "error link budget\n",
		"VALUE 1 yes 1 0 \nEND\n", "yes\n", strings.Repeat("x", lineBytes) + "\n",
		"VALUE 1 yes 1 1\nROW 1 a1 \"POLICY\"\nEND\nOK\n",
	} {
		daemon, err := Connect(listening(t, "OK 1 1\n", reply, "OK\n", "OK\n"))
		check(t, err)
		session := opened(t, daemon)
		answer, err := session.Query("no", "yes")
		if !errors.Is(err, LinkEnded) && !strings.HasSuffix(reply, "END\nOK\n") {
			t.Errorf("%.40q: %v %v", reply, answer, err)
		}
		if err := session.Clear(); err != LinkEnded {
			t.Errorf("%.40q: %v", reply, err)
		}
	}
	daemon, err := Connect(listening(t, "OK 1 1\n", "NOMEM\n", "VALUE 1 yes 1 1\nROW 1 a1 \"x\\\"\\012\"\nEND\n"))
	check(t, err)
	session := opened(t, daemon)
	if _, err := session.Query("no", "yes"); err != NoMemory {
		t.Error(err)
	}
	if answer, err := session.Query("no", "yes"); err != nil || answer.Rows[0].Principal != "x\"\n" {
		t.Error(answer, err)
	}
}

func TestOverTCP(t *testing.T) {
	listener, err := net.Listen("tcp", "127.0.0.1:0")
	check(t, err)
	defer listener.Close()
	daemon := exec.Command(program(t), "ask", write(t, "p.kn", policy))
	go func() {
		link, err := listener.Accept()
		if err != nil {
			return
		}
		file, _ := link.(*net.TCPConn).File()
		link.Close()
		daemon.Stdin, daemon.Stdout = file, file
		daemon.Run()
		file.Close()
	}()
	connection, err := Connect(listener.Addr().String())
	check(t, err)
	question := Question{Principals: []string{"alice"}, Values: []string{"no", "yes"}}
	answer, err := connection.Ask(context.Background(), question)
	check(t, err)
	if answer.Index != 1 {
		t.Error(answer)
	}
	check(t, connection.Close())
	listener.Close()
	if _, err := Connect(listener.Addr().String()); !errors.Is(err, LinkEnded) {
		t.Error(err)
	}
}

func TestAPolicyThatIsRefusedIsTold(t *testing.T) {
	path := write(t, "p.kn", "Authorizer: \"POLICY\"\nLicensees: alice\n")
	program(t)
	daemon, err := Start(path, "")
	check(t, err)
	defer daemon.Close()
	_, err = daemon.Session()
	if !errors.Is(err, LinkEnded) || !bytes.Contains([]byte(err.Error()), []byte("error policy "+path+" 1 19 5")) {
		t.Error(err)
	}
	if _, err := Start("p.kn", "keys\x00"); !errors.Is(err, LinkEnded) {
		t.Error(err)
	}
}
