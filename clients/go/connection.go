// Package keynoted asks the authorization service keynoted.
//
//	daemon, err := keynoted.Connect("127.0.0.1:2704")
//	...
//	answer, err := daemon.Ask(ctx, keynoted.Question{
//		Principals: []string{"alice"},
//		Attributes: map[string]string{"action": "read"},
//		Values:     []string{"no", "log", "yes"}, // the lowest first
//	})
//	allowed, err := answer.AtLeast("log")
//
// Nothing is decided here: each answer is the daemon's. An answer is compared by its index and never by its name. What
// would be read as another request is refused before it is sent. Never take an error for a yes.
//
// Goroutines may share a connection: an exchange, which is what is sent at once with its whole reply, is never parted.
// One that is interrupted ends the connection, since its reply would be taken for that of the next request.
package keynoted

import (
	"bufio"
	"context"
	"fmt"
	"io"
	"net"
	"os"
	"os/exec"
	"regexp"
	"strconv"
	"strings"
	"sync"
	"time"
)

const (
	// DefaultTimeout holds for connecting and for each exchange where nothing else is said.
	DefaultTimeout = 5 * time.Second

	// longer than any line of a reply: a principal has at most 4,096 bytes, each written by four at most
	lineBytes = 131072
)

// Connection is a connection to the daemon, which Connect and Start make. Close it at its end.
type Connection struct {
	// Timeout holds for each exchange; set it before the first one. 0 is DefaultTimeout, and a negative one is no limit.
	Timeout time.Duration

	// Order is all values that are ever asked for, the lowest first; set it before the first query. Where there is one,
	// a query whose values aren't in this order, or don't begin with its lowest, is refused, and one without values has
	// all of them.
	Order []string

	mutex   sync.Mutex // held during a whole exchange
	reader  *bufio.Reader
	source  deadlineReader
	sink    deadlineWriter
	process *exec.Cmd
	ended   bool
	opened  int // the number of the last session
}

type deadlineReader interface {
	io.ReadCloser
	SetReadDeadline(time.Time) error
}

type deadlineWriter interface {
	io.WriteCloser
	SetWriteDeadline(time.Time) error
}

// Connect dials a daemon over TCP: HOST:PORT, with an IPv6 address in brackets.
func Connect(address string) (*Connection, error) {
	return ConnectTimeout(address, DefaultTimeout)
}

// ConnectTimeout is Connect with another limit of time, which then holds for each exchange too.
func ConnectTimeout(address string, timeout time.Duration) (*Connection, error) {
	link, err := net.DialTimeout("tcp", address, max(timeout, 0))
	if err != nil {
		return nil, fmt.Errorf("%w: no connection to %s: %v", LinkEnded, address, err)
	}
	connection := newConnection(link, link)
	connection.Timeout = timeout
	return connection, nil
}

func max(a, b time.Duration) time.Duration {
	if a > b {
		return a
	}
	return b
}

// Start starts a daemon of one's own, with pipes to it, over this policy file and this key file, if keys isn't empty.
// The program is $KEYNOTED, or keynoted on PATH.
func Start(policy, keys string) (*Connection, error) {
	program := os.Getenv("KEYNOTED")
	if program == "" {
		program = "keynoted"
	}
	words := []string{"ask", policy}
	if keys != "" {
		words = append(words, keys)
	}
	process := exec.Command(program, words...)
	process.Stderr = os.Stderr
	connection, err := startWithPipes(process)
	if err != nil {
		return nil, fmt.Errorf("%w: %s doesn't start: %v", LinkEnded, program, err)
	}
	return connection, nil
}

func startWithPipes(process *exec.Cmd) (*Connection, error) {
	theirInput, sink, err := os.Pipe()
	if err != nil {
		return nil, err
	}
	defer theirInput.Close()
	source, theirOutput, err := os.Pipe()
	if err != nil {
		sink.Close()
		return nil, err
	}
	defer theirOutput.Close()
	process.Stdin, process.Stdout = theirInput, theirOutput
	if err := process.Start(); err != nil {
		sink.Close()
		source.Close()
		return nil, err
	}
	connection := newConnection(source, sink)
	connection.process = process
	return connection, nil
}

func newConnection(source deadlineReader, sink deadlineWriter) *Connection {
	return &Connection{reader: bufio.NewReaderSize(source, lineBytes), source: source, sink: sink}
}

// Close says BYE where that is still possible, closes the connection, and waits for a daemon that was started.
func (connection *Connection) Close() error {
	_, err := connection.askForm(okForm, nil, "BYE")
	connection.mutex.Lock()
	defer connection.mutex.Unlock()
	connection.end()
	if connection.process != nil {
		timer := time.AfterFunc(DefaultTimeout, func() { connection.process.Process.Kill() })
		connection.process.Wait()
		timer.Stop()
		connection.process = nil
	}
	return err
}

// Session opens a session, pinned to the newest version of the credentials.
func (connection *Connection) Session() (*Session, error) {
	var session *Session
	err := connection.exchange(context.Background(), "OPEN\n", func() error {
		number, version, err := connection.readOpened()
		session = &Session{connection: connection, Number: number, version: version}
		return err
	})
	if err != nil {
		return nil, err
	}
	return session, nil
}

// readOpened reads the reply to OPEN: the session's number and its version.
func (connection *Connection) readOpened() (number, version int, err error) {
	numbers, err := connection.readForm(openedForm)
	if err != nil {
		return 0, 0, err
	}
	connection.opened = numberOf(numbers[1])
	return connection.opened, numberOf(numbers[2]), nil
}

// Admin shows the administrators' secret, after which Add, Drop, Batch and Log are allowed.
func (connection *Connection) Admin(secret []byte) error {
	_, err := connection.askForm(okForm, nil, "ADMIN", fmt.Sprintf("%x", secret))
	return err
}

// Add adds a shared credential: its id, and the version that this makes.
func (connection *Connection) Add(text string) (id string, version int, err error) {
	parts, err := connection.askForm(addedForm, &text, "ADD", strconv.Itoa(len(text)))
	if err != nil {
		return "", 0, err
	}
	return parts[1], numberOf(parts[2]), nil
}

// Drop takes a shared credential away: the version that this makes.
func (connection *Connection) Drop(id string) (version int, err error) {
	parts, err := connection.askForm(versionForm, nil, "DROP", id)
	if err != nil {
		return 0, err
	}
	return numberOf(parts[1]), nil
}

// lineOf is a request of these words: each but the last has no space and isn't empty, and none has an end of line.
func lineOf(words ...string) (string, error) {
	for at, word := range words {
		if strings.ContainsAny(word, "\n\r") {
			return "", wrongArgument("an end of line would end the request: %q", word)
		}
		if at < len(words)-1 && (word == "" || strings.Contains(word, " ")) {
			return "", wrongArgument("a word that is empty or has a space would be read as others: %q", word)
		}
	}
	return strings.Join(words, " "), nil
}

// requestOf is a whole request: its line, and its block where there is one.
func requestOf(block *string, words ...string) (string, error) {
	line, err := lineOf(words...)
	if err != nil {
		return "", err
	}
	if block != nil {
		return line + "\n" + *block + "\n", nil
	}
	return line + "\n", nil
}

// askForm sends one request, and gives the parts of a reply of this form.
func (connection *Connection) askForm(form *regexp.Regexp, block *string, words ...string) ([]string, error) {
	request, err := requestOf(block, words...)
	if err != nil {
		return nil, err
	}
	var parts []string
	err = connection.exchange(context.Background(), request, func() (err error) {
		parts, err = connection.readForm(form)
		return err
	})
	return parts, err
}

func (connection *Connection) exchange(ctx context.Context, requests string, read func() error) error {
	return connection.exchangeMade(ctx, func() (string, error) { return requests, nil }, read)
}

// exchangeMade writes requests, which are made when the connection is free for them, and has `read` read the whole of
// their replies. While it goes on the connection counts as ended, so that one which is interrupted, in whatever way, is
// never used again. Refusals leave it open.
func (connection *Connection) exchangeMade(
	ctx context.Context, compose func() (string, error), read func() error,
) error {
	connection.mutex.Lock()
	defer connection.mutex.Unlock()
	if !connection.ended && connection.reader.Buffered() > 0 {
		connection.end() // what came unasked would be taken for a reply
	}
	if connection.ended {
		return LinkEnded
	}
	requests, err := compose()
	if err == nil {
		err = ctx.Err()
	}
	if err != nil {
		return err // nothing was sent
	}
	connection.ended = true
	stop := connection.limit(ctx)
	defer stop()
	// a refusal may have come before the end, so a failed write is told by the reading
	io.WriteString(connection.sink, requests)
	err = read()
	if isWhole(err) {
		connection.ended = false
		return err
	}
	connection.end()
	if cause := ctx.Err(); cause != nil {
		return fmt.Errorf("%w: %v", LinkEnded, cause)
	}
	return err
}

// isWhole says whether the replies were read to their end, and the daemon goes on after them.
func isWhole(err error) bool {
	refusal, refused := err.(*Refusal)
	return err == nil || err == NoMemory || refused && refusal.Code != NoBlock
}

// limit has reading and writing fail at the end of the time, or of the context. The function that it gives ends this.
func (connection *Connection) limit(ctx context.Context) (stop func()) {
	timeout := connection.Timeout
	if timeout == 0 {
		timeout = DefaultTimeout
	}
	deadline := time.Time{}
	if timeout > 0 {
		deadline = time.Now().Add(timeout)
	}
	connection.setDeadline(deadline)
	if ctx.Done() == nil {
		return func() {}
	}
	over, left := make(chan struct{}), make(chan struct{})
	go func() {
		defer close(left)
		select {
		case <-ctx.Done():
			connection.setDeadline(time.Unix(1, 0))
		case <-over:
		}
	}()
	return func() {
		close(over)
		<-left
	}
}

func (connection *Connection) setDeadline(deadline time.Time) {
	connection.source.SetReadDeadline(deadline)
	connection.sink.SetWriteDeadline(deadline)
}

func (connection *Connection) end() {
	connection.ended = true
	connection.sink.Close()
	connection.source.Close()
}
