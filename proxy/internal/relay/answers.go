package relay

import (
	"bytes"
	"crypto/sha512"
	"encoding/hex"
	"encoding/json"
	"errors"
	"io"
	"net/http"
	"strconv"
	"strings"

	"mvtgate-proxy/internal/gate"
	"mvtgate-proxy/internal/telling"
	"mvtgate-proxy/internal/tiles"
)

// The headers that say what the gate said.
const (
	faultHeader  = "X-Tile-Fault"
	mendedHeader = "X-Tile-Mended"
	staleHeader  = "X-Tile-Stale"
)

// faulty is the error that a tile has a fault.
type faulty struct {
	*gate.Verdict
	// unmended is why it wasn't mended, where it may be later: no memory or no turn was left.
	unmended *gate.Unjudged
}

func (it *faulty) Error() string { return it.Fault.Error() }

// body is what a response is read from.
type body struct {
	io.Reader
	close func() error
}

func (it *body) Close() error { return it.close() }

func bytesReader(of []byte) io.Reader { return bytes.NewReader(of) }

// untouched is an answer as it streams. HEAD has no body, also where GET was asked upstream.
func (it *exchange) untouched(response *http.Response, limit *patience) *http.Response {
	if it.asked.Method == http.MethodHead {
		limit.end(response)
		response.Body = http.NoBody
		return response
	}
	limit.pass(response)
	return response
}

// sent is the answer with a tile, or the one that the client has it. What the tile takes is released when it was sent.
func (it *exchange) sent(header http.Header, tile []byte, release func()) *http.Response {
	header.Del("Trailer")
	if isNotModified(it.asked.Header, header) {
		release()
		for _, name := range []string{"Content-Length", "Content-Type", "Content-Encoding"} {
			header.Del(name)
		}
		return it.response(http.StatusNotModified, header, nil, nil)
	}
	return it.response(http.StatusOK, header, tile, release)
}

func (it *exchange) response(status int, header http.Header, content []byte, release func()) *http.Response {
	if status != http.StatusNotModified {
		header.Set("Content-Length", strconv.Itoa(len(content)))
	}
	response := &http.Response{
		Status: http.StatusText(status), StatusCode: status, Proto: "HTTP/1.1", ProtoMajor: 1, ProtoMinor: 1,
		Header: header, Body: http.NoBody, ContentLength: int64(len(content)), Request: it.request,
	}
	if it.asked.Method != http.MethodHead && len(content) > 0 {
		response.Body = &body{bytes.NewReader(content), func() error {
			if release != nil {
				release()
			}
			return nil
		}}
	} else if release != nil {
		release()
	}
	return response
}

// reported is a tile that is sent though it didn't pass.
func (it *exchange) reported(header http.Header, packed *gate.Bytes, reason error) *http.Response {
	it.tell(reason, telling.Reported)
	header.Set(faultHeader, reasonText(reason))
	return it.sent(header, packed.Read, packed.Release)
}

// mended is the answer with a mended tile. It has a tag of its own, and nothing that is true of the other tile's bytes.
func (it *exchange) mended(header http.Header, tile []byte, verdict *gate.Verdict, release func()) *http.Response {
	it.tell(&faulty{Verdict: verdict}, telling.Mended)
	for _, name := range []string{"Last-Modified", "Content-Md5", "Digest", "Content-Digest", "Repr-Digest", "Accept-Ranges"} {
		header.Del(name)
	}
	sum := sha512.Sum512_256(tile)
	header.Set("ETag", `"`+hex.EncodeToString(sum[:16])+`-mended"`)
	header.Set(mendedHeader, strconv.Itoa(verdict.Fault.Code))
	it.Good.keep(it.asked, header, tile)
	return it.sent(header, tile, release)
}

// refused is the answer in place of a tile: the last good one where it is kept, else JSON that says why. The header is that of the
// upstream server's answer, if there is any.
func (it *exchange) refused(reason error, header http.Header) (*http.Response, error) {
	if gone := it.request.Context().Err(); gone != nil {
		return nil, gone
	}
	if header, tile, release := it.Good.stale(it.asked, it.unpacked); header != nil {
		it.tell(reason, telling.Stale)
		header.Set(faultHeader, reasonText(reason))
		return it.sent(header, tile, release), nil
	}
	it.tell(reason, telling.Refused)
	return it.refusal(reason, header), nil
}

// unpacked is a kept tile without its packing, within the bound on memory.
func (it *exchange) unpacked(packed []byte, encoding string) (tile *gate.Bytes, err error) {
	err = tiles.Unpacked(packed, encoding, func(source io.Reader) (err error) {
		tile, err = it.Budget.ReadAll(source, -1, it.Gate.MaxTile, nil)
		return err
	})
	if err != nil && tile != nil {
		tile.Release()
	}
	return tile, err
}

// noContent is the answer in place of other content than a tile, which the upstream server didn't give.
func (it *exchange) noContent(reason error) (*http.Response, error) {
	if gone := it.request.Context().Err(); gone != nil {
		return nil, gone
	}
	known := knownReason(reason)
	it.Metrics.UpstreamError(known.Code)
	it.Log.Line("upstream_error", map[string]any{"address": it.asked.URL.RequestURI(), "reason": known.Code, "sentence": known.Sentence})
	return it.refusal(known, nil), nil
}

// refusal is an answer of JSON, which no cache may keep. Scripts of the sites that may read the tile may read it too.
func (it *exchange) refusal(reason error, upstream http.Header) *http.Response {
	header := http.Header{"Content-Type": {"application/json"}, "Cache-Control": {"no-store"}}
	for name, values := range upstream {
		if strings.HasPrefix(name, "Access-Control-") || name == "Vary" {
			header[name] = values
		}
	}
	status, told := http.StatusInternalServerError, map[string]any{}
	var fault *faulty
	if errors.As(reason, &fault) {
		header.Set(faultHeader, fault.Fault.Text())
		told = map[string]any{
			"error": "the tile did not pass the gate", "code": fault.Fault.Code, "title": fault.Fault.Title(), "place": fault.Fault.Place(),
			"explanation": strings.Split(fault.Explanation, "\n"), "fault": fault.Fault,
		}
		if fault.unmended != nil {
			status, told["unmended"] = statusOf(fault.unmended, header), fault.unmended.Code
		}
	} else {
		known := knownReason(reason)
		status, told = statusOf(known, header), map[string]any{"error": known.Sentence, "unjudged": known.Code}
	}
	told["address"] = it.asked.URL.RequestURI()
	return it.response(status, header, encoded(told), nil)
}

// statusOf is the status by a reason, whose header says when to ask again where that may help.
func statusOf(reason *gate.Unjudged, header http.Header) int {
	if reason.RetryAfter > 0 {
		header.Set("Retry-After", strconv.Itoa(reason.RetryAfter))
	}
	return reason.Status
}

func encoded(told map[string]any) []byte {
	var text bytes.Buffer
	encoder := json.NewEncoder(&text)
	encoder.SetEscapeHTML(false)
	_ = encoder.Encode(told)
	return text.Bytes()
}

// knownReason is an error as an *Unjudged.
func knownReason(err error) *gate.Unjudged {
	if reason := unjudgedOf(err); reason != nil {
		return reason
	}
	return gate.OtherError
}

// reasonText is a reason as a header has it: the text of a fault, or which bound or mistake it was.
func reasonText(reason error) string {
	var fault *faulty
	if errors.As(reason, &fault) {
		return fault.Fault.Text()
	}
	return `{"unjudged":"` + knownReason(reason).Code + `"}`
}

// tell counts and logs a tile that didn't pass.
func (it *exchange) tell(reason error, answer string) {
	var fault *faulty
	if !errors.As(reason, &fault) {
		it.tellUnjudged(knownReason(reason), answer)
		return
	}
	it.Metrics.Fault(fault.Fault.Code, fault.Layer, answer)
	line := map[string]any{
		"address": it.asked.URL.RequestURI(), "answer": answer, "code": fault.Fault.Code, "layer": fault.Layer,
		"sentence": fault.Fault.Sentence(), "fault": fault.Fault,
	}
	if fault.unmended != nil {
		line["unmended"] = fault.unmended.Code
	}
	it.Log.Line("fault", line)
}

func (it *exchange) tellUnjudged(reason *gate.Unjudged, answer string) {
	it.Metrics.Unjudged(reason.Code, answer)
	it.Log.Line("unjudged", map[string]any{
		"address": it.asked.URL.RequestURI(), "answer": answer, "reason": reason.Code, "sentence": reason.Sentence,
	})
}
