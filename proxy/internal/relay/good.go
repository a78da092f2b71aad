package relay

import (
	"net/http"
	"strconv"
	"strings"
	"time"

	"mvtgate-proxy/internal/gate"
	"mvtgate-proxy/internal/lru"
	"mvtgate-proxy/internal/tiles"
)

// Good keeps the last good tile of each address. A nil *Good keeps nothing.
type Good struct {
	kept *lru.Cache[string, *goodTile]
	now  func() time.Time
}

type goodTile struct {
	header http.Header
	packed []byte
	at     time.Time
}

// NewGood keeps tiles of so many bytes together; it is nil where there are none.
func NewGood(bytes int64) *Good {
	if bytes <= 0 {
		return nil
	}
	return &Good{lru.New[string, *goodTile](bytes), time.Now}
}

// Size is how many tiles are kept, and how many bytes they take.
func (it *Good) Size() (tiles int, bytes int64) {
	if it == nil {
		return 0, 0
	}
	return it.kept.Size()
}

func addressOf(asked *http.Request) string { return asked.Host + asked.URL.RequestURI() }

// keep keeps a tile that was good, unless it is for this client alone.
func (it *Good) keep(asked *http.Request, header http.Header, packed []byte) {
	if it == nil || !isForAll(asked.Header, header) {
		return
	}
	// (the room that it was read into may be longer)
	tile := &goodTile{header.Clone(), append([]byte(nil), packed...), it.now()}
	size := len(tile.packed)
	for name, values := range header {
		size += len(name) + len(strings.Join(values, "")) + 100
	}
	key := addressOf(asked)
	it.kept.Put(key, tile, int64(size+len(key)))
}

// isForAll says whether an answer may be sent to other clients too, as a shared cache may (RFC 9111, section 3).
func isForAll(asked, answer http.Header) bool {
	if asked.Get("Authorization") != "" || asked.Get("Cookie") != "" || answer.Get("Set-Cookie") != "" {
		return false
	}
	control := strings.ToLower(strings.Join(answer.Values("Cache-Control"), ","))
	if strings.Contains(control, "private") || strings.Contains(control, "no-store") {
		return false
	}
	for _, name := range strings.Split(strings.Join(answer.Values("Vary"), ","), ",") {
		if name = strings.TrimSpace(name); name != "" && !strings.EqualFold(name, "Accept-Encoding") {
			return false
		}
	}
	return true
}

// unpacking makes a packed tile one that isn't.
type unpacking func(packed []byte, encoding string) (*gate.Bytes, error)

// stale is the header and the bytes of the last good tile, marked as what it is, and what releases them; no header where there is
// none. It is unpacked for a client that doesn't take it packed.
func (it *Good) stale(asked *http.Request, unpack unpacking) (header http.Header, tile []byte, release func()) {
	if it == nil {
		return nil, nil, nil
	}
	kept, isThere := it.kept.Get(addressOf(asked))
	if !isThere {
		return nil, nil, nil
	}
	header, tile, release = kept.header.Clone(), kept.packed, func() {}
	if encoding, _ := tiles.EncodingOf(header); !tiles.Takes(asked.Header, encoding) {
		unpacked, err := unpack(tile, encoding)
		if err != nil {
			return nil, nil, nil
		}
		tile, release = unpacked.Read, unpacked.Release
		// (a tag is that of the packed bytes)
		header.Del("Content-Encoding")
		header.Del("ETag")
	}
	for _, name := range []string{"Age", "Date", "Expires"} {
		header.Del(name)
	}
	header.Set("Cache-Control", "no-cache")
	header.Set(staleHeader, strconv.FormatInt(int64(it.now().Sub(kept.at)/time.Second), 10))
	return header, tile, release
}
