// Package lincheck records what the clients of a store do, and asks the command lincheck whether it is linearizable.
package lincheck

import (
	"bytes"
	"context"
	"encoding/json"
	"errors"
	"fmt"
	"os"
	"os/exec"
	"strconv"
)

// A Verdict says whether a history is linearizable. The zero Verdict is none.
type Verdict int

// The verdicts. All but Yes and No say that this isn't known.
const (
	Yes Verdict = iota + 1
	No
	Undecided
	IllFormed
	Refused
)

func (v Verdict) String() string {
	if v < Yes || v > Refused {
		return "nothing known"
	}
	return [...]string{"yes", "no", "undecided", "ill-formed", "refused"}[v-1]
}

// Options say what the objects are, and how they are checked.
type Options struct {
	Kind    string // register (also where it is empty), cas-register, fifo, unordered-queue, set, mutex
	Keyed   bool   // values are pairs of a key and a value, as InvokeKey writes them
	Key     any    // the object that Explain and Draw tell of; if nil the first that is a no, or the whole
	Budget  int    // how many configurations are kept for an object; if 0 as many as the command says
	Command string // if empty what LINCHECK in the environment names, or lincheck on the PATH
}

// An Object is one of the objects of a history.
type Object struct {
	Key     Word
	Kind    string
	Verdict Verdict
	Answer  string
}

// A Report is what the command told. Where an object is a No the whole is one, also where others are undecided.
type Report struct {
	Verdict Verdict
	Answer  string          // in a line: no prefix 4
	Text    string          // the explanation; of Check the line
	Key     Word            // of the object that is explained
	Objects []Object        // by rising key, of Check and where all keys are explained
	JSON    json.RawMessage // all that was printed: docs/FORMATS.md, section 10
}

// Check decides a history. With an error nothing is known of it.
func Check(ctx context.Context, history []byte, o Options) (*Report, error) {
	report, err := o.ask(ctx, history, "check")
	if err != nil {
		return nil, err
	}
	for _, it := range report.Objects {
		if it.Verdict == No && report.Verdict != No {
			report.Verdict, report.Answer = No, it.Answer
		}
	}
	report.Text = report.Answer
	return report, nil
}

// Explain decides a history and tells why. With an error nothing is known of it.
func Explain(ctx context.Context, history []byte, o Options) (*Report, error) {
	checked, o, err := o.chosen(ctx, history)
	if err != nil {
		return nil, err
	}
	report, err := o.ask(ctx, history, "explain")
	if err != nil || checked == nil {
		return report, err
	}
	if report.Verdict != checked.Verdict {
		return nil, fmt.Errorf("lincheck: check tells %s, and explain %s", checked.Answer, report.Answer)
	}
	report.Objects = checked.Objects
	return report, nil
}

// Draw makes a picture as SVG, of the object that Explain tells of.
func Draw(ctx context.Context, history []byte, o Options) ([]byte, error) {
	_, o, err := o.chosen(ctx, history)
	if err != nil {
		return nil, err
	}
	status, picture, err := o.run(ctx, history, "draw")
	if err == nil && (status > 2 || !bytes.HasPrefix(picture, []byte("<svg")) || !bytes.HasSuffix(picture, []byte("</svg>\n"))) {
		err = fmt.Errorf("lincheck: no picture, status %d: %.1000s", status, picture)
	}
	if err != nil {
		return nil, err
	}
	return picture, nil
}

// chosen gives the options for the object that is told of. Where that takes a check, it gives its report too.
func (o Options) chosen(ctx context.Context, history []byte) (*Report, Options, error) {
	if !o.Keyed || o.Key != nil {
		return nil, o, nil
	}
	checked, err := Check(ctx, history, o)
	if err != nil {
		return nil, o, err
	}
	for _, it := range checked.Objects {
		if it.Verdict == No {
			o.Key = it.Key
			break
		}
	}
	return checked, o, nil
}

// ask reads the map that is printed. It counts only where it has the status with which the command ended.
func (o Options) ask(ctx context.Context, history []byte, command string) (*Report, error) {
	status, printed, err := o.run(ctx, history, command, "--format", "json")
	if err != nil {
		return nil, err
	}
	type head struct {
		Valid  any `json:"valid?"`
		Status int
		Answer string
	}
	it := struct {
		head
		Failed  json.RawMessage // of an object that is a no beside one that is undecided
		Text    string
		Key     Word
		Objects []struct {
			head
			Key  Word
			Kind string
		}
	}{head: head{Status: -1}}
	valid := [...]any{true, false, "unknown", "unknown", "unknown"}
	isRead := json.Unmarshal(printed, &it) == nil
	if status == 2 && it.Failed != nil {
		valid[2] = false
	}
	if !isRead || it.Status != status || it.Valid != valid[status] {
		return nil, fmt.Errorf("lincheck: status %d: %.1000s", status, printed)
	}
	report := &Report{Verdict(status + 1), it.Answer, it.Text, it.Key, nil, printed}
	for _, object := range it.Objects {
		report.Objects = append(report.Objects, Object{object.Key, object.Kind, Verdict(object.Status + 1), object.Answer})
	}
	return report, nil
}

// run gives the status, which is at most 4, and what was printed.
func (o Options) run(ctx context.Context, history []byte, words ...string) (int, []byte, error) {
	if o.Kind != "" {
		words = append(words, "--kind", o.Kind)
	}
	if o.Keyed {
		words = append(words, "--keyed")
	}
	if o.Key != nil && words[0] != "check" {
		words = append(words, "--key="+edn(o.Key))
	}
	if o.Budget != 0 {
		words = append(words, "--budget", strconv.Itoa(o.Budget))
	}
	name := o.Command
	if name == "" {
		name = os.Getenv("LINCHECK")
	}
	if name == "" {
		name = "lincheck"
	}
	command := exec.CommandContext(ctx, name, append(words, "-")...)
	command.Stdin = bytes.NewReader(history)
	printed, err := command.Output()
	var ended *exec.ExitError
	if err != nil && !errors.As(err, &ended) {
		return 0, nil, fmt.Errorf("lincheck: %w", err)
	}
	if ctx.Err() != nil {
		return 0, nil, fmt.Errorf("lincheck: %w", ctx.Err())
	}
	if status := command.ProcessState.ExitCode(); status >= 0 && status <= 4 {
		return status, printed, nil
	}
	return 0, nil, fmt.Errorf("lincheck: %w: %.1000s%s", err, printed, ended.Stderr)
}
