// Prints the microseconds that casbin takes for the questions of bench/query which it can say: casbin ROUNDS SIZE..
//
// A credential is a role that is inherited: the licensee has what the authorizer has. Of each question and number of
// credentials it prints a line: its name, the number, and the first and the next calls of Enforce, as bench/query says
// it. casbin keeps the answer of a question about roles until the policy changes, so the next calls look it up.
package main

import (
	"fmt"
	"os"
	"sort"
	"strconv"
	"time"

	"github.com/casbin/casbin"
	"github.com/casbin/casbin/model"
	defaultrolemanager "github.com/casbin/casbin/rbac/default-role-manager"
)

const text = `
[request_definition]
r = sub
[policy_definition]
p = sub
[role_definition]
g = _, _
[policy_effect]
e = some(where (p.eft == allow))
[matchers]
m = g(r.sub, p.sub)
`

const askers, enforcers = 64, 10

func name(letter string, i int) string { return letter + strconv.Itoa(i) }

// The roles of a chain of so many credentials; the first credential is POLICY's own.
func chain(letter string, length int) [][]string {
	rules := [][]string{}
	for i := 1; i < length; i++ {
		rules = append(rules, []string{name(letter, i+1), name(letter, i)})
	}
	return rules
}

func besideAChainOfTwo(size int) [][]string {
	return append(chain("a", 2), chain("b", size-1)...)
}

func enforcer(rules [][]string, depth int) *casbin.Enforcer {
	m, err := model.NewModelFromString(text)
	check(err)
	e, err := casbin.NewEnforcer(m)
	check(err)
	e.SetRoleManager(defaultrolemanager.NewRoleManager(depth))
	_, err = e.AddPolicy("a1")
	check(err)
	_, err = e.AddGroupingPolicies(rules)
	check(err)
	return e
}

func check(err error) {
	if err != nil {
		fmt.Fprintln(os.Stderr, err)
		os.Exit(1)
	}
}

// Whether one of these may do it, each of whom is asked for by itself.
func ask(e *casbin.Enforcer, requesters []string) bool {
	for _, requester := range requesters {
		ok, err := e.Enforce(requester)
		check(err)
		if ok {
			return true
		}
	}
	return false
}

// The least of the first calls of ten enforcers, each of which was asked for somebody else before, so that it has
// compiled the model, and the median of the next calls.
func measure(rules func() [][]string, depth int, requesters []string, rounds int) (float64, float64) {
	first, nexts := 1e12, []float64{}
	for i := 0; i < enforcers; i++ {
		e := enforcer(rules(), depth)
		ask(e, []string{"nobody"})
		for j := 0; j <= rounds/enforcers; j++ {
			begun := time.Now()
			if !ask(e, requesters) {
				check(fmt.Errorf("it denies"))
			}
			spent := float64(time.Since(begun).Nanoseconds()) / 1000
			if j > 0 {
				nexts = append(nexts, spent)
			} else if spent < first {
				first = spent
			}
		}
	}
	sort.Float64s(nexts)
	return first, nexts[len(nexts)/2]
}

func main() {
	rounds, err := strconv.Atoi(os.Args[1])
	check(err)
	many := []string{}
	for i := 1; i < askers; i++ {
		many = append(many, name("d", i-1))
	}
	many = append(many, "a2")
	for _, word := range os.Args[2:] {
		size, err := strconv.Atoi(word)
		check(err)
		tell := func(question string, rules func() [][]string, requesters []string) {
			first, next := measure(rules, size+1, requesters, rounds)
			fmt.Printf("%s %d %.1f %.1f\n", question, size, first, next)
		}
		beside := func() [][]string { return besideAChainOfTwo(size) }
		tell("two", beside, []string{"a2"})
		tell("all", func() [][]string { return chain("a", size) }, []string{name("a", size)})
		tell("many", beside, many)
	}
}
