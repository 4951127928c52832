package singleflight

import "testing"

// A call that is used again has no key: a long one would stay in memory.
func TestPlainCallsKeepNoKey(t *testing.T) {
	var p plainTable
	size := defaultSizes()
	p.open(&size)
	a := asking{key: "key"}
	p.ask(&a)
	p.settle(&a, false)
	_, s := p.slotOf("key")
	if s.spare == nil || s.spare.key != "" || len(s.calls) != 0 {
		t.Error("the call is used again, without its key", s)
	}
}

// eachOpen calls do with each open call of plain Go, and with how a result would name it.
func (t *plainTable) eachOpen(do func(*call, Call)) {
	for i := range t.shards {
		s := &t.shards[i]
		s.mu.Lock()
		for _, c := range s.calls {
			stamp := t.stampOf(c.slot)
			do(c, Call{c.id, stamp.packed()})
		}
		s.mu.Unlock()
	}
}

func hasNoPlainCalls(t *plainTable) bool {
	var st Stats
	t.count(&st)
	return st.InUse == 0
}
