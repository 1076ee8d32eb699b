package keynoted

// Updates of the shared credentials: changes that are made together, and the log of them.

import (
	"context"
	"fmt"
	"io"
	"regexp"
	"strconv"
	"strings"
)

const (
	blockBytes   = 16384
	batchChanges = 256 // of an update
	logUpdates   = 16  // of a reply to LOG
)

var (
	batchedForm = regexp.MustCompile(`^OK a` + number + ` ` + number + ` ` + number + `$`)
	logForm     = regexp.MustCompile(`^LOG ` + number + ` ` + number + ` ` + number + `$`)
	updateForm  = regexp.MustCompile(`^UPDATE ` + number + ` ` + number + `$`)
	itemForm    = regexp.MustCompile(`^(?:ADD ` + number + `|DROP (a` + number + `))$`)
	idForm      = regexp.MustCompile(`^a` + number + `$`)
)

// Change is the addition of a text, or the removal of the credential that ID names.
type Change struct {
	Text string
	ID   string // empty for an addition
}

// Update is what made a version of another one: who made it, where 0 is the policy file, and the changes.
type Update struct {
	Caller  int
	Changes []Change
}

// Credential is a credential that was ever added.
type Credential struct {
	ID     string
	Live   bool
	Caller int // who added it; 0 is the policy file
	Text   string
}

// Batch is changes that are made together, by Send, or not at all.
type Batch struct {
	connection *Connection
	block      strings.Builder
	count      int
	err        error // the first one; then nothing is sent
}

// Batch is one without changes.
func (connection *Connection) Batch() *Batch { return &Batch{connection: connection} }

// Add adds a credential. An error is kept for Send.
func (batch *Batch) Add(text string) {
	batch.put(fmt.Sprintf("ADD %d\n%s\n", len(text), text))
}

// Drop takes a credential away, also one that the batch adds before. An error is kept for Send.
func (batch *Batch) Drop(id string) {
	if !idForm.MatchString(id) {
		batch.fail("an id is a and a number: %q", id)
	}
	batch.put("DROP " + id + "\n")
}

func (batch *Batch) put(item string) {
	if batch.count == batchChanges || batch.block.Len()+len(item) > blockBytes {
		batch.fail("a batch has at most %d changes and %d bytes with their lines", batchChanges, blockBytes)
	}
	if batch.err == nil {
		batch.count++
		batch.block.WriteString(item)
	}
}

func (batch *Batch) fail(form string, arguments ...any) {
	if batch.err == nil {
		batch.err = wrongArgument(form, arguments...)
	}
}

// Send makes the changes: the ids of the additions in their order, and the version that this makes. Where a change is
// refused none is made, and the error is a Refusal with the code NoItem, with the number of the change and its own refusal.
func (batch *Batch) Send() (ids []string, version int, err error) {
	if batch.err != nil {
		return nil, 0, batch.err
	}
	block := batch.block.String()
	parts, err := batch.connection.askForm(batchedForm, &block, "BATCH", strconv.Itoa(len(block)))
	if err != nil {
		return nil, 0, err
	}
	for at := 0; at < numberOf(parts[2]); at++ {
		ids = append(ids, "a"+strconv.Itoa(numberOf(parts[1])+at))
	}
	return ids, numberOf(parts[3]), nil
}

// Log gives the updates of the shared credentials behind the first ones, of which there are so many, to the newest.
func (connection *Connection) Log(length int) (updates []Update, err error) {
	for newest := -1; newest != length; {
		var part []Update
		err := connection.exchange(context.Background(), fmt.Sprintf("LOG %d\n", length), func() (err error) {
			part, newest, err = connection.readLog(length)
			return err
		})
		if err != nil {
			return nil, err
		}
		updates = append(updates, part...)
		length += len(part)
	}
	return updates, nil
}

// Credentials gives all shared credentials that were ever added, by the log from its beginning.
func (connection *Connection) Credentials() ([]Credential, error) {
	updates, err := connection.Log(0)
	if err != nil {
		return nil, err
	}
	return CredentialsOf(updates), nil
}

// CredentialsOf are the credentials that these updates added, where they are those from the first one on, in the order of
// their ids.
func CredentialsOf(updates []Update) (credentials []Credential) {
	for _, update := range updates {
		for _, change := range update.Changes {
			if change.ID == "" {
				id := "a" + strconv.Itoa(len(credentials)+1)
				credentials = append(credentials, Credential{id, true, update.Caller, change.Text})
			} else if at := numberOf(change.ID[1:]); 0 < at && at <= len(credentials) {
				credentials[at-1].Live = false
			}
		}
	}
	return credentials
}

// readLog reads a whole reply to LOG with this number: its updates, and how many there are in all.
func (connection *Connection) readLog(length int) (updates []Update, newest int, err error) {
	head, err := connection.readForm(logForm)
	if err != nil {
		return nil, 0, err
	}
	count, newest := numberOf(head[2]), numberOf(head[3])
	due := newest - length
	if due > logUpdates {
		due = logUpdates
	}
	if numberOf(head[1]) != length || count != due {
		return nil, 0, fmt.Errorf("%w: %s", LinkEnded, head[0])
	}
	for ; count > 0; count-- {
		update, err := connection.readUpdate()
		if err != nil {
			return nil, 0, err
		}
		updates = append(updates, update)
	}
	_, err = connection.readRest(endForm)
	return updates, newest, err
}

func (connection *Connection) readUpdate() (Update, error) {
	head, err := connection.readRest(updateForm)
	if err != nil {
		return Update{}, err
	}
	update, count := Update{Caller: numberOf(head[1])}, numberOf(head[2])
	if count < 1 || count > batchChanges {
		return Update{}, fmt.Errorf("%w: %s", LinkEnded, head[0])
	}
	for ; count > 0; count-- {
		change, err := connection.readChange()
		if err != nil {
			return Update{}, err
		}
		update.Changes = append(update.Changes, change)
	}
	return update, nil
}

// readChange reads an item as it stands in a block of BATCH.
func (connection *Connection) readChange() (Change, error) {
	item, err := connection.readRest(itemForm)
	if err != nil {
		return Change{}, err
	}
	if item[2] != "" {
		return Change{ID: item[2]}, nil
	}
	if numberOf(item[1]) > blockBytes {
		return Change{}, fmt.Errorf("%w: %s", LinkEnded, item[0])
	}
	text := make([]byte, numberOf(item[1])+1)
	if _, err := io.ReadFull(connection.reader, text); err != nil {
		return Change{}, fmt.Errorf("%w: within a text: %v", LinkEnded, err)
	}
	if text[len(text)-1] != '\n' {
		return Change{}, fmt.Errorf("%w: no end of line behind a text", LinkEnded)
	}
	return Change{Text: string(text[:len(text)-1])}, nil
}
