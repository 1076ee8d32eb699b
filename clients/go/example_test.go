package keynoted_test

import (
	"context"
	"fmt"
	"log"
	"os"

	"keynoted"
)

func Example() {
	policy := "doors.kn"
	text := "Authorizer: \"POLICY\"\nLicensees: \"alice\"\nConditions: door == \"front\" -> \"open\"; true -> \"ring\";\n"
	if err := os.WriteFile(policy, []byte(text), 0o644); err != nil {
		log.Fatal(err)
	}
	defer os.Remove(policy)
	daemon, err := keynoted.Start(policy, "") // keynoted.Connect("127.0.0.1:2704") for one that serves
	if err != nil {
		log.Fatal(err)
	}
	defer daemon.Close()
	answer, err := daemon.Ask(context.Background(), keynoted.Question{
		Principals: []string{"alice"},
		Attributes: map[string]string{"door": "back"},
		Values:     []string{"shut", "ring", "open"}, // the lowest first
	})
	if err != nil {
		log.Fatal(err) // never a yes
	}
	ring, err := answer.AtLeast("ring")
	fmt.Println(answer.Name(), ring, err)
	// Output: ring true <nil>
}
