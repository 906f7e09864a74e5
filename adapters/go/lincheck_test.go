package lincheck

import (
	"context"
	"errors"
	"fmt"
	"os"
	"path/filepath"
	"regexp"
	"strconv"
	"strings"
	"sync"
	"sync/atomic"
	"testing"
	"time"
)

var ctx = context.Background()

func panics(f func()) (told any) {
	defer func() { told = recover() }()
	f()
	return nil
}

func TestValues(t *testing.T) {
	type name string
	type raw []byte
	for _, it := range []struct {
		value  any
		wanted string
	}{
		{nil, "nil"}, {true, "true"}, {-7, "-7"}, {uint8(7), "7"}, {int64(-1 << 63), "-9223372036854775808"}, {uint64(1<<63 - 1), "9223372036854775807"},
		{"a", `"a"`}, {name("b"), `"b"`}, {raw("c"), `"c"`}, {"\"\\\n<é>\x7f", `"\"\\\u000a<é>` + "\x7f\""}, {"\xff\xc3", `"\u00ff\u00c3"`},
		{Word(":leader"), ":leader"}, {Word(`"a\"b"`), `"a\"b"`}, {[]byte("a"), `"a"`}, {[]byte(nil), "nil"}, {[]byte{}, `""`},
		{[]int{1, 2}, "[1 2]"}, {[2]any{nil, []string{"a"}}, `[nil ["a"]]`}, {[]any{}, "[]"},
	} {
		if got := edn(it.value); got != it.wanted {
			t.Errorf("%#v is %s, not %s", it.value, got, it.wanted)
		}
	}
	refused := []any{1.5, uint64(1 << 63), struct{}{}, new(int), map[int]int{}, []any{1.5}}
	for _, it := range []string{"", ":", "a", ":a b", ":a\n", `"a`, `"a"b"`, "\"a\n\"", "007", "1.5", "nil", "[1]"} {
		refused = append(refused, Word(it))
	}
	for _, it := range refused {
		if panics(func() { edn(it) }) == nil {
			t.Errorf("%#v has to be refused", it)
		}
	}
}

func TestLog(t *testing.T) {
	var log Log
	log.InvokeKey(3, "cas", "x", []int{1, 2}).OK("ignored")
	log.Invoke(0, "read", nil).Info()
	log.Invoke(0, "read", nil).OK(5)                      // under a fresh number
	log.Invoke(4, "write", Word(":a")).Fail()             // which was the next one
	func() { defer log.Invoke(0, "dequeue", 9).Info() }() // and again
	func() { op := log.Invoke(0, "add", 1); defer op.Info(); op.OK(nil) }()
	busy := log.Invoke(1, "acquire", nil)
	wanted := `{:process 3, :type :invoke, :f :cas, :value ["x" [1 2]]}
{:process 3, :type :ok, :f :cas, :value ["x" [1 2]]}
{:process 0, :type :invoke, :f :read, :value nil}
{:process 0, :type :info, :f :read, :value nil}
{:process 4, :type :invoke, :f :read, :value nil}
{:process 4, :type :ok, :f :read, :value 5}
{:process 5, :type :invoke, :f :write, :value :a}
{:process 5, :type :fail, :f :write, :value :a}
{:process 4, :type :invoke, :f :dequeue, :value 9}
{:process 4, :type :info, :f :dequeue, :value 9}
{:process 6, :type :invoke, :f :add, :value 1}
{:process 6, :type :ok, :f :add, :value 1}
{:process 1, :type :invoke, :f :acquire, :value nil}
`
	for _, f := range []func(){
		func() { log.Invoke(1, "release", nil) },
		func() { log.Invoke(-1, "read", nil) },
		func() { log.Invoke(2, "increment", nil) },
		func() { log.Invoke(2, "write", 1.5) },
	} {
		if panics(f) == nil {
			t.Error("has to panic")
		}
	}
	if got := string(log.EDN()); got != wanted {
		t.Fatalf("got\n%swanted\n%s", got, wanted)
	}
	busy.OK(nil)
	if panics(busy.Fail) == nil {
		t.Error("an operation can't end twice")
	}
}

// Each operation has drawn a number before it began and another after it ended: of two whose numbers don't overlap the first is first in the log.
func TestOrder(t *testing.T) {
	const clients, each = 16, 200
	var log Log
	var clock int64
	var wait sync.WaitGroup
	var began, ended [clients * each]int64
	for client := 0; client < clients; client++ {
		wait.Add(1)
		go func(client int) {
			defer wait.Done()
			for i := client * each; i < (client+1)*each; i++ {
				began[i] = atomic.AddInt64(&clock, 1)
				op := log.Invoke(client, "add", i)
				if i%50 == 0 {
					op.Info()
				} else {
					op.OK(nil)
				}
				ended[i] = atomic.AddInt64(&clock, 1)
			}
		}(client)
	}
	wait.Wait()
	called, last, events := [clients * each]int{}, [clients * each]int{}, 0
	form := regexp.MustCompile(`process (\d+), :type :(\w+), :f :add, :value (\d+)`)
	open := map[string]string{}
	for at, it := range form.FindAllStringSubmatch(string(log.EDN()), -1) {
		events++
		process, kind, number := it[1], it[2], it[3]
		i, _ := strconv.Atoi(number)
		if kind == "invoke" {
			if open[process] != "" {
				t.Fatalf("process %s begins %s, and has %s", process, number, open[process])
			}
			open[process], called[i] = number, at
			continue
		}
		if open[process] != number {
			t.Fatalf("process %s ends %s, and has %s", process, number, open[process])
		}
		open[process] = ""
		if kind == "info" {
			open[process] = "no more"
		}
		last[i] = at
	}
	if events != 2*clients*each {
		t.Fatalf("%d events", events)
	}
	for i := range began {
		for j := range began {
			if ended[i] < began[j] && last[i] > called[j] {
				t.Fatalf("%d ended before %d began", i, j)
			}
		}
	}
	report, err := Check(ctx, log.EDN(), Options{Kind: "set"})
	if err != nil || report.Verdict != Yes {
		t.Fatal(report, err)
	}
}

func register(answers ...any) []byte {
	var log Log
	log.Invoke(0, "write", 1).OK(nil)
	for _, it := range answers {
		log.Invoke(1, "read", nil).OK(it)
	}
	return log.EDN()
}

func TestVerdicts(t *testing.T) {
	open := new(Log)
	for client := 0; client < 8; client++ {
		open.Invoke(client, "write", client)
	}
	for _, it := range []struct {
		history []byte
		o       Options
		verdict Verdict
		answer  string
	}{
		{nil, Options{}, Yes, "yes"},
		{register(1), Options{}, Yes, "yes"},
		{register(1, nil), Options{Kind: "cas-register"}, No, "no prefix 6"},
		{open.EDN(), Options{Budget: 8}, Undecided, "undecided at 2"},
		{register(1), Options{Kind: "fifo"}, IllFormed, "ill-formed at 0 cause 3 NotOfKind"},
		{[]byte("{:a}"), Options{}, Refused, "refused input edn 2 OddMap at 3"},
	} {
		report, err := Check(ctx, it.history, it.o)
		if err != nil || report.Verdict != it.verdict || report.Answer != it.answer || report.Text != it.answer {
			t.Errorf("check: %+v %v, not %v", report, err, it.verdict)
		}
		report, err = Explain(ctx, it.history, it.o)
		if err != nil || report.Verdict != it.verdict || report.Answer != it.answer || !strings.HasPrefix(report.Text, it.answer+"\n") {
			t.Errorf("explain: %+v %v, not %v", report, err, it.verdict)
		}
		picture, err := Draw(ctx, it.history, it.o)
		if it.verdict <= Undecided && (err != nil || !strings.Contains(string(picture), "<title>"+it.answer)) {
			t.Errorf("no picture: %s %v", picture, err)
		}
		if it.verdict > Undecided && (err == nil || picture != nil || !strings.Contains(err.Error(), it.answer)) {
			t.Errorf("a picture: %s %v", picture, err)
		}
	}
}

// A key that is a no makes the whole a no, also where another one is undecided before it.
func TestKeys(t *testing.T) {
	for _, key := range []any{0, -5, true, "x\n\"é\" \\", "\xff", Word(":x")} {
		var log Log
		for client := 0; client < 3; client++ {
			log.InvokeKey(client, "write", Word(":zzz"), client)
		}
		log.InvokeKey(3, "write", key, 1).OK(nil)
		log.InvokeKey(3, "read", key, nil).OK(nil)
		log.InvokeKey(4, "write", Word(":zzzz"), 1).OK(nil)
		log.InvokeKey(4, "read", Word(":zzzz"), nil).OK(nil)
		o := Options{Keyed: true, Budget: 8}
		checked, err := Check(ctx, log.EDN(), o)
		if err != nil || checked.Verdict != No || checked.Answer != "no prefix 7" {
			t.Fatalf("%v: %+v %v", key, checked, err)
		}
		report, err := Explain(ctx, log.EDN(), o)
		if err != nil || report.Verdict != No || report.Key != Word(edn(key)) || !strings.Contains(report.Text, "why: nil was overwritten") {
			t.Fatalf("%v: %+v %v", key, report, err)
		}
		wanted := []Object{
			{Word(edn(key)), "register", No, "no prefix 7"},
			{":zzz", "register", Undecided, "undecided at 2"},
			{":zzzz", "register", No, "no prefix 11"},
		}
		if fmt.Sprint(report.Objects) != fmt.Sprint(wanted) {
			t.Errorf("%v: %v", key, report.Objects)
		}
		picture, err := Draw(ctx, log.EDN(), o)
		if err != nil || !strings.Contains(string(picture), "<title>no prefix 7") {
			t.Errorf("%v: %s %v", key, picture, err)
		}
		o.Key = Word(":zzz")
		report, err = Explain(ctx, log.EDN(), o)
		if err != nil || report.Verdict != Undecided {
			t.Errorf("%v: %+v %v", key, report, err)
		}
	}
}

// Where the command can't answer, or what it prints isn't an answer, there is an error and no verdict.
func TestNothingKnown(t *testing.T) {
	folder := t.TempDir()
	for name, script := range map[string]string{
		"killed":     "kill -9 $$",
		"cut":        `printf '{"valid?":true,"status":0,"ans'`,
		"launcher":   "exit 1",
		"otherwise":  `echo '{"valid?":true,"status":0,"answer":"yes","text":"yes"}'; exit 1`,
		"turned":     `echo '{"valid?":true,"status":1,"answer":"yes","text":"yes"}'; exit 1`,
		"statusless": `echo '{"valid?":true,"answer":"yes","text":"yes"}'`,
		"words":      "echo usage; exit 5",
		"sixth":      `echo '{"valid?":"unknown","status":6,"answer":"yes","text":"yes"}'; exit 6`,
		"drawn":      "echo '<svg></svg>'; kill -9 $$",
		"memory":     "echo lincheck: 3 OutOfMemory; exit 6",
		"missing":    "",
	} {
		o := Options{Command: filepath.Join(folder, name)}
		if script != "" {
			if err := os.WriteFile(o.Command, []byte("#!/bin/sh\n"+script+"\n"), 0o755); err != nil {
				t.Fatal(err)
			}
		}
		if report, err := Check(ctx, nil, o); report != nil || err == nil {
			t.Errorf("%s: %+v", name, report)
		}
		if report, err := Explain(ctx, nil, o); report != nil || err == nil {
			t.Errorf("%s: %+v", name, report)
		}
		if picture, err := Draw(ctx, nil, o); picture != nil || err == nil {
			t.Errorf("%s: %s", name, picture)
		}
	}
	if _, err := Check(ctx, nil, Options{Kind: "stack"}); err == nil || !strings.Contains(err.Error(), "stack") {
		t.Error(err)
	}
	slow := filepath.Join(folder, "slow")
	if err := os.WriteFile(slow, []byte("#!/bin/sh\nexec sleep 600\n"), 0o755); err != nil {
		t.Fatal(err)
	}
	short, stop := context.WithTimeout(ctx, 50*time.Millisecond)
	defer stop()
	if _, err := Check(short, nil, Options{Command: slow}); !errors.Is(err, context.DeadlineExceeded) {
		t.Error(err)
	}
}
