package peers

import (
	"context"
	"encoding/json"
	"time"
)

// Lie is the fault that the tests with processes have to see: a peer acknowledges each Forget, and
// takes it a while later.
func Lie(key []byte, self string, answer func([]byte) []byte) func([]byte) []byte {
	k := keys{key}
	return func(sealed []byte) []byte {
		var what request
		text, err := k.open(sealRequest, []byte(self), sealed)
		if err != nil || json.Unmarshal(text, &what) != nil || what.Number == nil {
			return answer(sealed)
		}
		time.AfterFunc(100*time.Millisecond, func() { answer(sealed) })
		text, _ = json.Marshal(reply{From: self, Start: what.ToStart, Held: []number{*what.Number}})
		return k.seal(sealReply, sealed, text)
	}
}

// SizesOf returns what of a Pool's Options has reached its parts: Forgotten, Timeout, Every, Owner.
func SizesOf(p *Pool) (forgotten int, timeout, every, within time.Duration) {
	toOwner := p.engine.Transport(context.Background()).(owner)
	return p.node.versions.most, p.node.timeout, p.node.every, toOwner.within
}
