package lincheck

import (
	"bytes"
	"fmt"
	"math"
	"reflect"
	"regexp"
	"strconv"
	"strings"
	"sync"
	"unicode/utf8"
)

// Word is an item as EDN spells it: the keyword Word(":leader"), or a key as the command tells it.
type Word string

var word = regexp.MustCompile(`^(?::[^\t-\r ,()\[\]{}";\\]+|#?"(?:[^"\\\n]|\\[^\n])*"|true|false|-?(?:0|[1-9][0-9]*))$`)

// A Log is a history that any number of goroutines record. Its order is that in which operations began and ended. The zero Log is empty.
//
// A process is a client, which does one operation after another. Where it isn't known whether one took effect, that one stays open for good, and
// what the client does next stands under a fresh number.
//
// Values are nil, booleans, integers, strings, Words, and slices of these; a []byte is a string, or nil where it is nil. Others panic, and so
// does a client that begins an operation within another.
type Log struct {
	mu      sync.Mutex
	lines   bytes.Buffer
	numbers map[int]int // of each client: its process in the history
	used    map[int]bool
	busy    map[int]bool
	fresh   int // above all that are used
}

// An Operation is what a client does, up to the first of OK, Fail and Info.
type Operation struct {
	log       *Log
	process   int
	f, called string
	written   func(value any) string
	ended     bool
}

// Invoke records that a client begins an operation: read, write, cas, enqueue, dequeue, add, acquire or release.
func (l *Log) Invoke(process int, f string, value any) *Operation {
	return l.begin(&Operation{log: l, process: process, f: f, called: edn(value), written: edn})
}

// InvokeKey is Invoke for one of several objects, as Options.Keyed reads them.
func (l *Log) InvokeKey(process int, f string, key, value any) *Operation {
	written := func(value any) string { return edn([]any{key, value}) }
	return l.begin(&Operation{log: l, process: process, f: f, called: written(value), written: written})
}

// EDN is the history as far as it is recorded.
func (l *Log) EDN() []byte {
	l.mu.Lock()
	defer l.mu.Unlock()
	return append([]byte(nil), l.lines.Bytes()...)
}

// OK records that the operation is done. The value is what a read or a dequeue gave, and counts for these alone.
func (o *Operation) OK(value any) {
	written := o.called
	if o.f == "read" || o.f == "dequeue" {
		written = o.written(value)
	}
	o.tell("ok", written)
}

// Fail records that the operation didn't take effect, and never will.
func (o *Operation) Fail() { o.tell("fail", o.called) }

// Info records that it isn't known whether the operation took effect, or will. Where it has ended that says nothing, so it can be deferred.
func (o *Operation) Info() { o.end("info", o.called) }

func (o *Operation) tell(kind, value string) {
	if !o.end(kind, value) {
		panic("lincheck: the operation has ended before")
	}
}

func (l *Log) begin(o *Operation) *Operation {
	switch o.f {
	case "read", "write", "cas", "enqueue", "dequeue", "add", "acquire", "release":
	default:
		panic(fmt.Sprintf("lincheck: a history has no %q", o.f))
	}
	l.mu.Lock()
	defer l.mu.Unlock()
	if o.process < 0 || l.busy[o.process] {
		panic(fmt.Sprintf("lincheck: process %d is below zero, or still in another operation", o.process))
	}
	if l.numbers == nil {
		l.numbers, l.used, l.busy = map[int]int{}, map[int]bool{}, map[int]bool{}
	}
	l.busy[o.process] = true
	if _, ok := l.numbers[o.process]; !ok {
		number := o.process
		if l.used[number] {
			number = l.fresh
		}
		l.numbers[o.process], l.used[number] = number, true
		if number >= l.fresh {
			l.fresh = number + 1
		}
	}
	l.put(o, "invoke", o.called)
	return o
}

// end tells whether this is the first end of the operation. Another isn't recorded.
func (o *Operation) end(kind, value string) bool {
	o.log.mu.Lock()
	defer o.log.mu.Unlock()
	if o.ended {
		return false
	}
	o.ended = true
	o.log.put(o, kind, value)
	delete(o.log.busy, o.process)
	if kind == "info" {
		delete(o.log.numbers, o.process)
	}
	return true
}

func (l *Log) put(o *Operation, kind, value string) {
	fmt.Fprintf(&l.lines, "{:process %d, :type :%s, :f :%s, :value %s}\n", l.numbers[o.process], kind, o.f, value)
}

func edn(value any) string {
	switch it := value.(type) {
	case nil:
		return "nil"
	case Word:
		if !word.MatchString(string(it)) {
			panic(fmt.Sprintf("lincheck: no item of EDN: %q", it))
		}
		return string(it)
	}
	it := reflect.ValueOf(value)
	switch it.Kind() {
	case reflect.Bool:
		return strconv.FormatBool(it.Bool())
	case reflect.Int, reflect.Int8, reflect.Int16, reflect.Int32, reflect.Int64:
		return strconv.FormatInt(it.Int(), 10)
	case reflect.Uint, reflect.Uint8, reflect.Uint16, reflect.Uint32, reflect.Uint64:
		if it.Uint() <= math.MaxInt64 {
			return strconv.FormatUint(it.Uint(), 10)
		}
	case reflect.String:
		return quoted(it.String())
	case reflect.Slice, reflect.Array:
		if it.Kind() == reflect.Slice && it.Type().Elem().Kind() == reflect.Uint8 {
			if it.IsNil() {
				return "nil"
			}
			return quoted(string(it.Bytes()))
		}
		parts := make([]string, it.Len())
		for i := range parts {
			parts[i] = edn(it.Index(i).Interface())
		}
		return "[" + strings.Join(parts, " ") + "]"
	}
	panic(fmt.Sprintf("lincheck: a history has no values such as %#v", value))
}

// quoted spells different strings differently, those too that aren't UTF-8.
func quoted(text string) string {
	var out strings.Builder
	out.WriteByte('"')
	for len(text) > 0 {
		r, size := utf8.DecodeRuneInString(text)
		switch {
		case r == '"' || r == '\\':
			out.WriteByte('\\')
			out.WriteByte(text[0])
		case r < ' ' || r == utf8.RuneError && size == 1:
			fmt.Fprintf(&out, `\u%04x`, text[0])
		default:
			out.WriteString(text[:size])
		}
		text = text[size:]
	}
	out.WriteByte('"')
	return out.String()
}
