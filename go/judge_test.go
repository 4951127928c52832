package singleflight

import (
	"bytes"
	"encoding/json"
	"fmt"
	"math"
	"os"
	"os/exec"
	"path/filepath"
	"runtime"
	"sort"
	"strings"
	"testing"
)

// A record of format 4, as docs/RECORDS.md has it.
type record struct {
	E       string     `json:"e"`
	By      uint32     `json:"by"`
	K       *string    `json:"k"`
	C       *[2]uint32 `json:"c"`
	M       *[2]uint32 `json:"m"`
	Closed  *[2]uint32 `json:"closed"`
	Hit     string     `json:"hit"`
	Own     json.RawMessage
	Ok, Err *string
	Joiners uint32   `json:"joiners"`
	At      [2]int64 `json:"at"`
}

// The calls of a key that are judged: when the call has to be open, at least.
type judged struct {
	name          [2]uint32
	opens, closes int64
	first, last   record
}

// readRecords returns the events of a log in format 4, and how many were lost.
func readRecords(log []byte) (all []record, lost uint64, err error) {
	for i, line := range bytes.Split(bytes.TrimSuffix(log, []byte("\n")), []byte("\n")) {
		var format struct {
			Format int
			Lost   *uint64
		}
		if bytes.HasPrefix(line, []byte(`{"format"`)) {
			if json.Unmarshal(line, &format) != nil || format.Format != 4 || format.Lost == nil {
				return nil, 0, fmt.Errorf("line %d: not a format: %s", i+1, line)
			}
			lost += *format.Lost
			continue
		}
		decode := json.NewDecoder(bytes.NewReader(line))
		decode.DisallowUnknownFields()
		var it record
		err := decode.Decode(&it)
		if i == 0 || err != nil || it.By < 1 || it.By > 65535 || it.At[0] > it.At[1] ||
			(it.E == "lead") != (string(it.Own) == "null") || it.K != nil && len(*it.K) > 250 {
			return nil, 0, fmt.Errorf("line %d: not a record: %s: %v", i+1, line, err)
		}
		all = append(all, it)
	}
	return all, lost, nil
}

// countOf returns how many of the events are of this kind.
func countOf(all []record, kind string) (n uint64) {
	for _, it := range all {
		if it.E == kind {
			n++
		}
	}
	return n
}

// judge looks for events that no legal order in time has: what sfctl check --timed decides, by its
// rules, but for a ForgetCall that missed its call, which no recorder of this package writes.
func judge(all []record) error {
	type call struct {
		key    string
		leader uint32
		stages [6][]record // lead, enters, what closed it, settle, handed, what cleared it
	}
	calls := map[[2]uint32]*call{}
	names := map[[2]uint32]bool{}
	idle := map[string][]record{}
	of := func(name [2]uint32) *call {
		if calls[name] == nil {
			calls[name] = &call{}
		}
		return calls[name]
	}
	isNew := func(name [2]uint32, by uint32) error {
		if names[name] || name[0] != by || name[1] == 0 {
			return fmt.Errorf("%v is not new, or not of the caller %d", name, by)
		}
		names[name] = true
		return nil
	}
	for _, it := range all {
		stage, name := 0, it.C
		switch it.E {
		case "lead":
			if err := isNew(*it.C, it.By); err != nil {
				return err
			}
			of(*it.C).key, of(*it.C).leader = *it.K, it.By
		case "enter":
			stage = 1
			if err := isNew(*it.M, it.By); err != nil {
				return err
			}
		case "forget":
			if stage, name = 2, it.Closed; name == nil {
				idle[*it.K] = append(idle[*it.K], it)
				continue
			}
		case "forgetcall":
			switch it.Hit {
			case "closed":
				stage = 2
			case "cleared":
				stage = 5
			default:
				return fmt.Errorf("a hit of %q", it.Hit)
			}
		case "settle":
			stage = 3
			if (it.Ok == nil) == (it.Err == nil) {
				return fmt.Errorf("%v has no result, or two", *it.C)
			}
		case "handed":
			stage = 4
		default:
			return fmt.Errorf("an event %q", it.E)
		}
		c := of(*name)
		c.stages[stage] = append(c.stages[stage], it)
	}
	keys := map[string][]judged{}
	for name, c := range calls {
		if len(c.stages[0]) != 1 || len(c.stages[2]) > 1 || len(c.stages[3]) > 1 || len(c.stages[4]) > len(c.stages[3]) {
			return fmt.Errorf("%v has these events: %+v", name, c.stages)
		}
		if len(c.stages[2]) > 0 && len(c.stages[5]) > 0 || len(c.stages[5]) > 1 {
			return fmt.Errorf("%v was cleared when it was closed, or twice", name)
		}
		for _, it := range append(c.stages[3], c.stages[4]...) {
			if it.By != c.leader {
				return fmt.Errorf("%v was settled by %d", name, it.By)
			}
		}
		if len(c.stages[3]) == 1 && int(c.stages[3][0].Joiners) != len(c.stages[1]) {
			return fmt.Errorf("%v has %d Enters, and a Settle with %d", name, len(c.stages[1]), c.stages[3][0].Joiners)
		}
		end := 3
		if len(c.stages[5]) > 0 {
			end = 5
		} else if len(c.stages[2]) > 0 {
			end = 2
		}
		it := judged{name: name, opens: math.MaxInt64, closes: -1}
		begun := record{At: [2]int64{-1, -1}}
		for stage, of := range c.stages {
			latest := begun
			for _, e := range of {
				if e.K != nil && *e.K != c.key {
					return fmt.Errorf("%v is of %q and %q", name, c.key, *e.K)
				}
				if e.At[1] < begun.At[0] && !(stage == 5 && begun.E == "handed") {
					return fmt.Errorf("%v: %+v has to follow %+v, and ended before it began", name, e, begun)
				}
				if e.At[0] > latest.At[0] {
					latest = e
				}
				if e.At[1] < it.opens {
					it.opens, it.first = e.At[1], e
				}
				if stage <= end && e.At[0] > it.closes {
					it.closes, it.last = e.At[0], e
				}
			}
			begun = latest
		}
		if len(c.stages[3]) == 0 && end == 3 {
			it.closes = math.MaxInt64
		}
		keys[c.key] = append(keys[c.key], it)
	}
	for key, of := range keys {
		forgets := idle[key]
		sort.Slice(of, func(i, j int) bool { return of[i].opens < of[j].opens })
		sort.Slice(forgets, func(i, j int) bool { return forgets[i].At[0] < forgets[j].At[0] })
		for i, a := range of {
			for _, b := range of[i+1:] {
				if a.closes <= b.opens {
					break
				}
				if b.closes > a.opens {
					return fmt.Errorf("%q: two calls were open at once: %v from %+v to %+v and %v from %+v to %+v",
						key, a.name, a.first, a.last, b.name, b.first, b.last)
				}
			}
			first := sort.Search(len(forgets), func(i int) bool { return forgets[i].At[0] > a.opens })
			for _, f := range forgets[first:] {
				if f.At[0] >= a.closes {
					break
				}
				if f.At[1] < a.closes {
					return fmt.Errorf("%q: %+v found no open call, between %+v and %+v of %v", key, f, a.first, a.last, a.name)
				}
			}
		}
	}
	return nil
}

// The program sfctl that SFLIGHT_SFCTL names, or the proved one of the repository if it is there. That is for x86-64.
func sfctl() string {
	if it := os.Getenv("SFLIGHT_SFCTL"); it != "" {
		return it
	}
	it := filepath.Join("..", "crates", "sf_cli", "out", "sf_cli")
	if _, err := os.Stat(it); err != nil || runtime.GOARCH != "amd64" {
		return ""
	}
	return it
}

// isLegal fails the test where the log is not legal in time: by judge, and by sfctl if that is there.
// It returns the log's events.
func isLegal(t *testing.T, log []byte) []record {
	t.Helper()
	all, lost, err := readRecords(log)
	if err != nil {
		t.Fatal(err)
	}
	if err := judge(all); err != nil {
		t.Fatal("the recording is not legal in time: ", err)
	}
	if program := sfctl(); program != "" && lost == 0 {
		want := fmt.Sprintf("legal in time: %d events\n", len(all))
		if said := saysOf(program, log); said != want {
			t.Fatal("sfctl check --timed: ", said)
		}
	}
	return all
}

func saysOf(program string, log []byte) string {
	it := exec.Command(program, "check", "--timed")
	it.Stdin = bytes.NewReader(log)
	said, err := it.CombinedOutput()
	if err != nil && !strings.HasPrefix(err.Error(), "exit status 1") {
		return fmt.Sprint(string(said), err)
	}
	return string(said)
}

// Judges the log that SFLIGHT_RECORDS names.
func TestJudgeALog(t *testing.T) {
	name := os.Getenv("SFLIGHT_RECORDS")
	if name == "" {
		t.Skip("SFLIGHT_RECORDS names no log")
	}
	log, err := os.ReadFile(name)
	if err != nil {
		t.Fatal(err)
	}
	all, lost, err := readRecords(log)
	if err == nil {
		err = judge(all)
	}
	if err != nil {
		t.Fatal(err)
	}
	t.Logf("legal in time: %d events, %d lost", len(all), lost)
}
