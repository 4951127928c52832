package peers

import (
	"bytes"
	"crypto/hmac"
	"crypto/sha256"
	"encoding/base64"
	"encoding/binary"
	"errors"
	"fmt"
	stdhash "hash"
	"strconv"
	"sync"
	"time"
)

// Keys are those that the peers share: the first signs, each of them is accepted.
type keys [][]byte

// LeastKeyBytes is the smallest size of a key of Options.Keys.
const LeastKeyBytes = 16

// MostSkew is the largest difference between two peers' clocks. A request that is older or later
// than that is refused, so a recorded request is of no use afterwards.
const MostSkew = 5 * time.Minute

var (
	errSignature = errors.New("it is not signed with a key of this pool")
	errSkew      = fmt.Errorf("its time is not within %v of the time here", MostSkew)
)

// macs has hashes of each key that are not in use: to make one costs as much as to use one.
var macs struct {
	sync.RWMutex
	of map[string]*sync.Pool
}

func macsOf(key []byte) *sync.Pool {
	macs.RLock()
	pool := macs.of[string(key)]
	macs.RUnlock()
	if pool != nil {
		return pool
	}
	macs.Lock()
	defer macs.Unlock()
	if pool = macs.of[string(key)]; pool == nil {
		if macs.of == nil {
			macs.of = map[string]*sync.Pool{}
		}
		own := append([]byte(nil), key...)
		pool = &sync.Pool{New: func() any { return hmac.New(sha256.New, own) }}
		macs.of[string(own)] = pool
	}
	return pool
}

// mac signs the parts, of which none can run into the next.
func mac(key []byte, parts ...[]byte) []byte {
	pool := macsOf(key)
	m := pool.Get().(stdhash.Hash)
	defer pool.Put(m)
	m.Reset()
	var length [8]byte
	for _, part := range parts {
		binary.BigEndian.PutUint64(length[:], uint64(len(part)))
		m.Write(length[:])
		m.Write(part)
	}
	return m.Sum(nil)
}

// sign signs the parts, with the time and a random number where they are a request; text is what
// goes along. The parts are of the message and not of HTTP, so that it holds over any Transport.
func (k keys) sign(now time.Time, parts ...[]byte) (text string) {
	var nonce [8]byte
	binary.BigEndian.PutUint64(nonce[:], randomNumber())
	head := strconv.FormatInt(now.UnixNano(), 10) + "." + base64.RawURLEncoding.EncodeToString(nonce[:])
	return head + "." + base64.RawURLEncoding.EncodeToString(mac(k[0], append(parts, []byte(head))...))
}

// verify tells whether a key of the pool made the text of sign for the parts, lately.
func (k keys) verify(now time.Time, text string, parts ...[]byte) error {
	at := bytes.LastIndexByte([]byte(text), '.')
	if at < 0 {
		return errSignature
	}
	head := []byte(text[:at])
	sum, err := base64.RawURLEncoding.DecodeString(text[at+1:])
	if err != nil {
		return errSignature
	}
	signed := false
	for _, key := range k {
		signed = hmac.Equal(sum, mac(key, append(parts, head)...)) || signed
	}
	if !signed {
		return errSignature
	}
	made, _, _ := bytes.Cut(head, []byte("."))
	at64, err := strconv.ParseInt(string(made), 10, 64)
	if err != nil {
		return errSignature
	}
	if skew := now.Sub(time.Unix(0, at64)); skew > MostSkew || skew < -MostSkew {
		return errSkew
	}
	return nil
}

// seal puts a line before the body: the body's size and digest, and their signature. What it answers,
// or whom it is for, is signed as well. So a receiver knows a stranger by the line, before it has
// read the body.
func (k keys) seal(kind string, to []byte, body []byte) []byte {
	return k.sealAt(time.Now(), kind, to, body)
}

func (k keys) sealAt(now time.Time, kind string, to []byte, body []byte) []byte {
	if len(k) == 0 {
		return body
	}
	of := digestOf(body)
	return append([]byte(of+":"+k.sign(now, []byte(kind), to, []byte(of))+"\n"), body...)
}

func digestOf(body []byte) string {
	sum := sha256.Sum256(body)
	return strconv.Itoa(len(body)) + "." + base64.RawURLEncoding.EncodeToString(sum[:])
}

// mostHead is the largest size of the line of seal, with its end.
const mostHead = 256

// openHead returns the digest that the line gives of the body, and the body's size.
func (k keys) openHead(kind string, to []byte, line []byte) (digest string, size int, err error) {
	of, signature, ok := bytes.Cut(line, []byte(":"))
	if !ok || len(line) >= mostHead {
		return "", 0, errSignature
	}
	err = k.verify(time.Now(), string(signature), []byte(kind), to, of)
	if err != nil && err != errSkew {
		return "", 0, err
	}
	text, _, _ := bytes.Cut(of, []byte("."))
	size, bad := strconv.Atoi(string(text))
	if bad != nil || size < 0 {
		return "", 0, errSignature
	}
	return string(of), size, err
}

// open returns the body, with errSkew also where the signature is one of another time.
func (k keys) open(kind string, to []byte, sealed []byte) ([]byte, error) {
	if len(k) == 0 {
		return sealed, nil
	}
	line, body, ok := bytes.Cut(sealed, []byte("\n"))
	if !ok {
		return nil, errSignature
	}
	digest, _, err := k.openHead(kind, to, line)
	if digest != "" && digest != digestOf(body) {
		err = errSignature
	}
	return body, err
}

const (
	sealRequest = "peers request"
	sealReply   = "peers reply"
	sealKept    = "peers kept"
)
