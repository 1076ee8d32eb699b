package keynoted

// What isn't an answer: the refusals of the daemon by their codes, and the ways in which a connection fails.

import (
	"errors"
	"fmt"
	"regexp"
	"strconv"
	"strings"
)

// Code is the number of a refusal, an error of its own: errors.Is(err, keynoted.NoAdmin).
type Code int

// The refusals of the daemon, which have changed nothing. NoBlock ends the connection.
const (
	NoSyntax Code = 1 + iota
	NoCommand
	NoSession
	NoAdmin
	NoRead
	NoPolicy
	NoAuth
	NoName
	NoValue
	NoValues
	NoPrincipal
	NoUnknown
	NoLimit
	NoLong
	NoBlock
	NoBatch
	NoItem
	NoRetained
	NoAhead
)

var causes = map[Code]string{
	NoSyntax:    "the line hasn't the form of its command",
	NoCommand:   "the first word is no command; commands are in upper case",
	NoSession:   "no such session is open on this connection",
	NoAdmin:     "the secret is wrong, or a right one must come before this request",
	NoRead:      "the text is no assertion; Parts are the fault and its place",
	NoPolicy:    "the authorizer of a private assertion is POLICY",
	NoAuth:      "the credential isn't admitted: 1 no signature, 2 another algorithm, 3 no key, 4 another code",
	NoName:      "no attribute can have this name: a letter, then letters, digits and _, at most 128 bytes",
	NoValue:     "the value has more than 4,096 bytes",
	NoValues:    "the values aren't 2 to 64 different names",
	NoPrincipal: "the principal is empty, has more than 4,096 bytes, or is POLICY",
	NoUnknown:   "the assertion, credential, attribute, requester or kept question isn't there",
	NoLimit:     "a limit is met; Parts are its word and what there is",
	NoLong:      "the line has more than 8,192 bytes",
	NoBlock:     "the text has more than 16,384 bytes, or isn't as long as was said; the connection ends",
	NoBatch:     "a batch has 1 to 256 items; Parts are the number of the first that isn't of its form",
	NoItem:      "an item of the batch is refused, and none is done; Item is its number, Reason its own refusal",
	NoRetained:  "this version isn't among the newest 16; Parts are the newest one",
	NoAhead:     "there aren't so many updates; Parts are how many there are",
}

func (code Code) Error() string { return causes[code] }

// Refusal is a line NO of the daemon's.
type Refusal struct {
	Line   string   // the whole line
	Code   Code     // its number
	Parts  []string // the words behind the first three
	Item   int      // of NoItem, the number of the item, from 1
	Reason *Refusal // of NoItem, the refusal of the item alone
}

func (refusal *Refusal) Error() string {
	if refusal.Reason != nil {
		return fmt.Sprintf("%s: item %d: %s", refusal.Line, refusal.Item, refusal.Reason.Code.Error())
	}
	return refusal.Line + ": " + refusal.Code.Error()
}

// Unwrap is the refusal of an item of a batch, so that errors.Is finds its code too.
func (refusal *Refusal) Unwrap() error {
	if refusal.Reason == nil {
		return nil
	}
	return refusal.Reason
}

// Is says whether target is the code of the refusal.
func (refusal *Refusal) Is(target error) bool { return target == refusal.Code }

var (
	// NoMemory says that the daemon was out of memory for the request, which has changed nothing: neither a yes nor a no.
	NoMemory = errors.New("out of memory for this request: no answer")

	// LinkEnded says that the connection has ended: by the other side, by a time limit, by an interrupted exchange, or
	// because what came is no reply to the request. Nothing more can be asked on it.
	LinkEnded = errors.New("the connection has ended")

	// WrongArgument says that an argument would be read as another request, and that nothing was sent.
	WrongArgument = errors.New("wrong argument")
)

const (
	count       = `(?:0|[1-9]\d*)`
	itemRefusal = `5 read ` + count + ` ` + count + `|7 auth [1-9]\d*|12 unknown|13 limit [a-z-]+ ` + count
)

var refusalForm = regexp.MustCompile(`^NO (?:1 syntax|2 command|3 session|4 admin|6 policy|8 name|9 value|10 values` +
	`|11 principal|14 long|15 block|` + itemRefusal + `|16 batch [1-9]\d*|17 item [1-9]\d* (?:` + itemRefusal + `)` +
	`|18 retained ` + count + `|19 ahead ` + count + `)$`)

// refusalOf is the error of a line NO; nil where the line is none.
func refusalOf(line string) error {
	if !refusalForm.MatchString(line) {
		return nil
	}
	words := strings.Fields(line)
	code, _ := strconv.Atoi(words[1])
	refusal := &Refusal{Line: line, Code: Code(code), Parts: words[3:]}
	if refusal.Code == NoItem {
		refusal.Item = numberOf(words[3])
		refusal.Reason, _ = refusalOf("NO " + strings.Join(words[4:], " ")).(*Refusal)
	}
	return refusal
}

func wrongArgument(form string, arguments ...any) error {
	return fmt.Errorf("%w: %s", WrongArgument, fmt.Sprintf(form, arguments...))
}
