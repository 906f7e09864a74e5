package lincheck_test

import (
	"context"
	"strings"
	"sync"
	"testing"

	"lincheck"
)

// A store of values by key. It is wrong where a read comes from a copy that is one write behind, and where writes of one key are lost.
type store struct {
	mu       sync.Mutex
	old, new map[string]any
	isStale  bool
	loses    string
}

func (s *store) put(key string, value any) {
	s.mu.Lock()
	defer s.mu.Unlock()
	if key != s.loses {
		s.old[key], s.new[key] = s.new[key], value
	}
}

func (s *store) get(key string) any {
	s.mu.Lock()
	defer s.mu.Unlock()
	if s.isStale {
		return s.old[key]
	}
	return s.new[key]
}

// recorded has each of three clients write a key of its own and read all keys.
func recorded(s *store) []byte {
	s.old, s.new = map[string]any{}, map[string]any{}
	keys := []string{"a", "b", "c"}
	var log lincheck.Log
	var wait sync.WaitGroup
	for client := range keys {
		wait.Add(1)
		go func(client int) {
			defer wait.Done()
			for round := 0; round < 3; round++ {
				op := log.InvokeKey(client, "write", keys[client], round)
				s.put(keys[client], round)
				op.OK(nil)
				for i := range keys {
					key := keys[(client+i)%len(keys)]
					op = log.InvokeKey(client, "read", key, nil)
					op.OK(s.get(key))
				}
			}
		}(client)
	}
	wait.Wait()
	return log.EDN()
}

func TestStores(t *testing.T) {
	for _, it := range []struct {
		name    string
		store   *store
		verdict lincheck.Verdict
		key     lincheck.Word
		told    string
	}{
		{"right", &store{}, lincheck.Yes, "", "yes\n"},
		{"stale", &store{isStale: true}, lincheck.No, `"a"`, "\nobject \"a\" register: "},
		{"lost", &store{loses: "b"}, lincheck.No, `"b"`, "\nobject \"b\" register: "},
	} {
		report, err := lincheck.Explain(context.Background(), recorded(it.store), lincheck.Options{Keyed: true})
		if err != nil {
			t.Fatal(err)
		}
		if report.Verdict != it.verdict || report.Key != it.key || !strings.Contains(report.Text, it.told) {
			t.Errorf("%s: %+v", it.name, report)
		}
		if report.Verdict == lincheck.No && !strings.Contains(report.Text, "\nwhy: nil was overwritten") {
			t.Errorf("%s: %s", it.name, report.Text)
		}
	}
}
