package peers

import (
	"bytes"
	"encoding/json"
	"errors"
	"testing"
	"time"
)

// between changes each message from one peer to another, and each reply, as where one of them has
// another version of this package.
func between(t *testing.T, m *mesh, from, to string, change func(message map[string]any)) {
	edit := func(text []byte) []byte {
		var message map[string]any
		read := json.NewDecoder(bytes.NewReader(text))
		read.UseNumber()
		if err := read.Decode(&message); err != nil {
			t.Error(err)
		}
		change(message)
		text, _ = json.Marshal(message)
		return text
	}
	m.mu.Lock()
	defer m.mu.Unlock()
	m.routes[from+">"+to] = func(request []byte) []byte {
		text, err := testKeys.open(sealRequest, []byte(to), request)
		if err != nil {
			t.Error(err)
		}
		m.mu.Lock()
		answer := m.answer[to]
		m.mu.Unlock()
		if answer == nil {
			return nil
		}
		edited := testKeys.seal(sealRequest, []byte(to), edit(text))
		reply := answer(edited)
		if reply == nil {
			return nil
		}
		if text, err = testKeys.open(sealReply, edited, reply); err != nil {
			t.Error(err)
		}
		return testKeys.seal(sealReply, request, edit(text))
	}
}

// A pool in which b has another version of this package: one that does not know what others have, or
// one whose messages have more in them. Forgets hold, and b learns what it missed, as the others do.
func TestTwoVersionsInOnePool(t *testing.T) {
	for name, change := range map[string]func(map[string]any){
		"an older one": func(message map[string]any) {
			delete(message, "has")
		},
		"a later one": func(message map[string]any) {
			message["later"] = map[string]any{"a": []int{1, 2}}
			if changes, ok := message["changes"].(map[string]any); ok {
				changes["later"] = "x"
				if levels, ok := changes["levels"].([]any); ok {
					for _, level := range levels {
						level.(map[string]any)["later"] = 7
					}
				}
			}
		},
	} {
		m := newMesh()
		for _, other := range []string{"a", "c"} {
			between(t, m, "b", other, change)
			between(t, m, other, "b", change)
		}
		a, b, c := beginAll(t, m, time.Minute)
		all := []*node{a, b, c}
		hold := func(of item, at *node) {
			t.Helper()
			before := map[string]bool{}
			for _, n := range all {
				before[versionOf(n.versions, of)] = true
			}
			if err := acknowledged(at, of); err != nil {
				t.Errorf("%s: %v", name, err)
			}
			isFresh(t, of, before, all...)
		}
		for _, n := range all {
			hold(user, n)
			hold(item{scope: ofCache, cache: "users"}, n)
			hold(keyItem("users", "only "+n.self), n)
		}
		for _, away := range all {
			others := []*node{}
			for _, n := range all {
				if n != away {
					others = append(others, n)
				}
			}
			m.setCut(away.self, true)
			missed := keyItem("users", "missed by "+away.self)
			var unanswered *Unanswered
			if err := forget(others[0], missed); !errors.As(err, &unanswered) || len(unanswered.Peers) != 1 {
				t.Errorf("%s: while %s is cut off: %v", name, away.self, err)
			}
			m.setCut(away.self, false)
			if has(away, others[0], missed) {
				t.Errorf("%s: %s has it already", name, away.self)
			}
			if round(away); !has(away, others[0], missed) {
				t.Errorf("%s: %s does not learn what it missed", name, away.self)
			}
		}
		// A process that begins learns it all.
		next := begin(t, m, "b", time.Minute)
		for _, key := range []string{"missed by b", "only c", "7"} {
			if of := keyItem("users", key); versionOf(next.versions, of) != versionOf(a.versions, of) {
				t.Errorf("%s: one that begins does not learn that %s was forgotten", name, key)
			}
		}
	}
}

// What a peer does not understand it refuses, so that the Forget does not return nil.
func TestAForgetThatIsNotUnderstood(t *testing.T) {
	m := newMesh()
	between(t, m, "a", "b", func(message map[string]any) {
		if items, ok := message["items"].([]any); ok {
			of := items[0].(map[string]any)
			of["of"] = ofAll + 1
			delete(of, "key")
		}
	})
	a, _, _ := beginAll(t, m, time.Minute)
	var unanswered *Unanswered
	if err := forget(a, user); !errors.As(err, &unanswered) || len(unanswered.Peers) != 1 || unanswered.Peers[0].Peer != "b" {
		t.Errorf("a Forget that b does not understand: %v", err)
	}
}
