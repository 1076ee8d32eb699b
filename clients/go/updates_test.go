package keynoted

// Tests of batches, the log and older versions.

import (
	"errors"
	"fmt"
	"os/exec"
	"path/filepath"
	"strings"
	"testing"
)

func TestABatchIsSentAtOnce(t *testing.T) {
	// one for each line: a batch has eleven, and then one has four
	replies := make([]string, 16)
	replies[0], replies[11], replies[15] = "OK a2 2 4\n", "NO 17 item 2 12 unknown\n", "OK\n"
	daemon, err := Connect(listening(t, replies...))
	check(t, err)
	batch := daemon.Batch()
	batch.Add(credential)
	batch.Add(credential)
	batch.Drop("a1")
	ids, version, err := batch.Send()
	if err != nil || fmt.Sprint(ids) != "[a2 a3]" || version != 4 {
		t.Fatal(ids, version, err)
	}
	batch = daemon.Batch()
	batch.Drop("a1")
	batch.Drop("a1")
	_, _, err = batch.Send()
	var refusal *Refusal
	if !errors.As(err, &refusal) || refusal.Item != 2 || !errors.Is(err, NoItem) || !errors.Is(err, NoUnknown) || errors.Is(err, NoLimit) {
		t.Fatal(err)
	}
	if refusal.Reason.Line != "NO 12 unknown" || !strings.HasPrefix(err.Error(), "NO 17 item 2 12 unknown: item 2: the assertion") {
		t.Error(refusal.Reason, err)
	}
	check(t, daemon.Admin([]byte("s3cret")))
}

func TestWhatWouldBeOtherItemsIsNotSent(t *testing.T) {
	daemon, err := Connect(listening(t, "OK\n"))
	check(t, err)
	for _, fill := range []func(*Batch){
		func(batch *Batch) { batch.Drop("a1\nDROP a2") },
		func(batch *Batch) { batch.Drop("1") },
		func(batch *Batch) { batch.Drop("a01"); batch.Drop("a1") },
		func(batch *Batch) { batch.Add(strings.Repeat("c", 16374)) },
		func(batch *Batch) {
			for count := 0; count < 257; count++ {
				batch.Drop("a1")
			}
		},
	} {
		batch := daemon.Batch()
		fill(batch)
		if _, _, err := batch.Send(); !errors.Is(err, WrongArgument) {
			t.Error(err)
		}
	}
	check(t, daemon.Admin([]byte("s3cret")))
}

func TestTheLogGoesOnToTheNewest(t *testing.T) {
	update := func(number int) string {
		return fmt.Sprintf("UPDATE %d 2\nADD 9\nEND\nNOMEM\nDROP a%d\n", number%3, number)
	}
	first := "LOG 5 16 22\n"
	for number := 6; number <= 21; number++ {
		first += update(number)
	}
	daemon, err := Connect(listening(t, first+"END\n", "LOG 21 1 22\n"+update(22)+"END\n", "LOG 22 0 22\nEND\n", "NO 19 ahead 22\n", "NOMEM\n"))
	check(t, err)
	updates, err := daemon.Log(5)
	check(t, err)
	if len(updates) != 17 || updates[16].Caller != 1 || fmt.Sprintf("%q", updates[16].Changes) != `[{"END\nNOMEM" ""} {"" "a22"}]` {
		t.Error(updates)
	}
	if updates, err = daemon.Log(22); err != nil || len(updates) != 0 {
		t.Error(updates, err)
	}
	if _, err = daemon.Log(23); !errors.Is(err, NoAhead) {
		t.Error(err)
	}
	if _, err = daemon.Log(0); err != NoMemory {
		t.Error(err)
	}
}

func TestWhatIsNoReplyToLogEndsTheConnection(t *testing.T) {
	good := "UPDATE 0 1\nADD 2\nx\n\n"
	for _, reply := range []string{
		"LOG 0 1 1\n" + good + "OK\n", "LOG 0 1 2\n" + good + "END\n", "LOG 0 2 1\n" + good + "END\n", "LOG 1 0 1\nEND\n",
		"LOG 0 1\n" + good + "END\n", "LOG 0 17 17\n" + strings.Repeat(good, 17) + "END\n", "LOG 0 1 1\nEND\n",
		"LOG 0 1 1\nUPDATE 0 0\nEND\n", "LOG 0 1 1\nUPDATE 0 257\n" + strings.Repeat("DROP a1\n", 257) + "END\n",
		"LOG 0 1 1\nUPDATE 0 2\nDROP a1\nEND\n", "LOG 0 1 1\nUPDATE 0 1\nDROP 1\nEND\n", "LOG 0 1 1\nNO 4 admin\n",
		"LOG 0 1 1\nUPDATE 0 1\nADD 16385\n" + strings.Repeat("x", 16385) + "\nEND\n",
		"LOG 0 1 1\nUPDATE 0 1\nADD 1\nx\n\nEND\n", "LOG 0 1 1\nUPDATE 0 1\nADD 3\nx\n\nxEND\n", "OK\n", "NO 19 ahead\n",
	} {
		daemon, err := Connect(listening(t, reply, "OK\n", "OK\n"))
		check(t, err)
		if updates, err := daemon.Log(0); !errors.Is(err, LinkEnded) {
			t.Errorf("%.40q: %v %v", reply, updates, err)
		}
		if err := daemon.Admin([]byte("x")); err != LinkEnded {
			t.Errorf("%.40q: %v", reply, err)
		}
	}
}

func TestUpdatesOverTheProgram(t *testing.T) {
	told := exec.Command(program(t), "ask", filepath.Join("/dev", "null"))
	told.Stdin = strings.NewReader("LOG\n")
	if reply, _ := told.Output(); string(reply) != "NO 1 syntax\n" {
		t.Skip("the program has no LOG")
	}
	daemon := started(t, policy)
	session := opened(t, daemon)
	if _, err := daemon.Log(0); !errors.Is(err, NoAdmin) {
		t.Error(err)
	}
	check(t, daemon.Admin([]byte("s3cret")))
	batch := daemon.Batch()
	batch.Add(credential)
	batch.Add(credential)
	batch.Drop("a2")
	ids, version, err := batch.Send()
	if err != nil || fmt.Sprint(ids) != "[a2 a3]" || version != 2 {
		t.Fatal(ids, version, err)
	}
	check(t, session.Auth("bob"))
	for _, row := range []struct{ pinned, index int }{{2, 1}, {1, 0}} {
		newest, err := session.PinVersion(row.pinned)
		check(t, err)
		answer, err := session.Query("no", "yes")
		check(t, err)
		if newest != 2 || session.Version() != row.pinned || answer.Version != row.pinned || answer.Index != row.index {
			t.Error(row, newest, session.Version(), answer)
		}
	}
	if _, err := session.PinVersion(3); !errors.Is(err, NoRetained) {
		t.Error(err)
	}
	credentials, err := daemon.Credentials()
	wanted := []Credential{{"a1", true, 0, policy}, {"a2", false, 0, credential}, {"a3", true, 0, credential}}
	if err != nil || fmt.Sprint(credentials) != fmt.Sprint(wanted) {
		t.Error(credentials, err)
	}
	if _, _, err := daemon.Batch().Send(); !errors.Is(err, NoBatch) {
		t.Error(err)
	}
}
