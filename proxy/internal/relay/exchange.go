package relay

import (
	"io"
	"net/http"
	"strings"
	"time"

	"mvtgate-proxy/internal/gate"
	"mvtgate-proxy/internal/telling"
	"mvtgate-proxy/internal/tiles"
)

// exchange is one request and its answer.
type exchange struct {
	*Relay
	// request is what the reverse proxy sends upstream, asked what the client sent.
	request, asked *http.Request
	begun          time.Time
}

// run is the answer to a GET or HEAD.
func (it *exchange) run() (*http.Response, error) {
	isAddress := it.Known.IsAddress(it.request.URL.Path)
	first := it.request
	if isAddress {
		first = it.whole("")
	}
	response, limit, err := it.ask(first)
	if err != nil && !isAddress {
		return it.noContent(err)
	}
	if err != nil {
		return it.refused(err, nil)
	}
	if response.StatusCode == http.StatusSwitchingProtocols {
		limit.last()
		return response, nil
	}
	isTile, err := it.isTile(response)
	if err != nil {
		limit.end(response)
		return it.refused(err, response.Header)
	}
	if !isTile {
		// (the client's condition wasn't asked of the server, since the address could have been that of a tile)
		if isAddress && response.StatusCode == http.StatusOK && isNotModified(it.asked.Header, response.Header) {
			limit.end(response)
			return it.sent(response.Header, nil, func() {}), nil
		}
		return it.untouched(response, limit), nil
	}
	if isWhole(response, first) {
		return it.tile(response, limit)
	}
	limit.end(response)
	return it.again(response)
}

// whole is a request for all of a tile, in an encoding that can be unpacked, or in this one.
func (it *exchange) whole(encoding string) *http.Request {
	request := it.request.Clone(it.request.Context())
	request.Method = http.MethodGet
	for _, name := range []string{"Range", "If-Range", "If-None-Match", "If-Modified-Since", "Connection", "Upgrade"} {
		request.Header.Del(name)
	}
	if encoding != "" {
		request.Header.Set("Accept-Encoding", encoding)
	}
	tiles.Narrow(request.Header)
	return request
}

// isWhole says whether an answer to the request has all of a tile, in an encoding that can be unpacked.
func isWhole(response *http.Response, request *http.Request) bool {
	_, isKnown := tiles.EncodingOf(response.Header)
	return isKnown && request.Method == http.MethodGet && hasAll(response)
}

// hasAll says whether the status of an answer is that of one with all that was asked for.
func hasAll(response *http.Response) bool {
	switch status := response.StatusCode; status {
	case http.StatusNoContent, http.StatusResetContent, http.StatusPartialContent:
		return false
	default:
		return 200 <= status && status < 300
	}
}

// again asks for all of a tile of which the first answer had only a part, or nothing that can be judged.
func (it *exchange) again(first *http.Response) (*http.Response, error) {
	encoding := ""
	if _, isKnown := tiles.EncodingOf(first.Header); !isKnown {
		encoding = "identity"
	}
	response, limit, err := it.ask(it.whole(encoding))
	if err != nil {
		return it.refused(err, first.Header)
	}
	if response.StatusCode == http.StatusPartialContent {
		// (that nobody asked for)
		return it.unread(response, limit, gate.Cut)
	}
	if !hasAll(response) {
		return it.untouched(response, limit), nil
	}
	if _, isKnown := tiles.EncodingOf(response.Header); isKnown {
		return it.tile(response, limit)
	}
	return it.unread(response, limit, gate.Encoding)
}

// unread is the answer in place of a tile that can't be read.
func (it *exchange) unread(response *http.Response, limit *patience, reason *gate.Unjudged) (*http.Response, error) {
	if it.Mode == Report {
		it.tellUnjudged(reason, telling.Reported)
		response.Header.Set(faultHeader, reasonText(reason))
		return it.untouched(response, limit), nil
	}
	limit.end(response)
	return it.refused(reason, response.Header)
}

// isTile says whether an answer is a tile, or a part of one, or says that the client has one. Where it doesn't say its type, the
// upstream server is asked for that.
func (it *exchange) isTile(response *http.Response) (bool, error) {
	path := it.request.URL.Path
	switch {
	case hasAll(response):
		return it.Known.IsTile(path, response.Header), nil
	case response.StatusCode == http.StatusPartialContent, response.StatusCode == http.StatusNotModified:
		if declared := response.Header.Get("Content-Type"); declared != "" && !strings.HasPrefix(declared, "multipart/") {
			return it.Known.IsTile(path, response.Header), nil
		}
		if it.Mode == Report {
			// (what the client has was sent whatever the gate said)
			return false, nil
		}
		return it.isTileByHead()
	default:
		return false, nil
	}
}

func (it *exchange) isTileByHead() (bool, error) {
	request := it.whole("")
	request.Method = http.MethodHead
	response, limit, err := it.ask(request)
	if err != nil {
		return false, err
	}
	limit.end(response)
	return hasAll(response) && it.Known.IsTile(request.URL.Path, response.Header), nil
}

// ask is the upstream server's answer, and the patience with it, which whoever has the answer ends.
func (it *exchange) ask(request *http.Request) (*http.Response, *patience, error) {
	limit := newPatience(request.Context(), it.UpstreamTime)
	response, err := it.Upstream.RoundTrip(request.WithContext(limit.context))
	if err != nil {
		err = limit.reasonOf(err, gate.Gone)
		limit.end(nil)
		return nil, nil, err
	}
	return response, limit, nil
}

// tile is the answer in place of the upstream server's whole tile.
func (it *exchange) tile(response *http.Response, limit *patience) (*http.Response, error) {
	packed, err := it.Budget.ReadAll(response.Body, response.ContentLength, it.MaxPacked, nil)
	if reason := unjudgedOf(err); reason != nil && it.Mode == Report {
		return it.streamed(response, packed, limit, reason), nil
	}
	if err != nil {
		err = limit.reasonOf(err, gate.Cut)
	}
	limit.end(response)
	it.Metrics.Upstream(time.Since(it.begun))
	if err == nil {
		var answer *http.Response
		if answer, err = it.judged(response.Header, packed); err == nil {
			return answer, nil
		}
	}
	packed.Release()
	return it.refused(err, response.Header)
}

// streamed is a tile that is sent unjudged, since it is too long: what was read of it, and the rest as it comes.
func (it *exchange) streamed(response *http.Response, packed *gate.Bytes, limit *patience, reason *gate.Unjudged) *http.Response {
	it.tellUnjudged(reason, telling.Reported)
	response.Header.Set(faultHeader, reasonText(reason))
	rest := response.Body
	response.Body = &body{Reader: io.MultiReader(bytesReader(packed.Read), rest), close: func() error {
		packed.Release()
		return rest.Close()
	}}
	return it.untouched(response, limit)
}

// judged is the answer with a tile that was read, whose header this is. The error is why there is none.
func (it *exchange) judged(header http.Header, packed *gate.Bytes) (*http.Response, error) {
	encoding, _ := tiles.EncodingOf(header)
	verdict, err := it.Gate.Judge(it.request.Context(), packed.Read, encoding)
	if gone := it.request.Context().Err(); gone != nil {
		return nil, gone
	}
	switch {
	case err != nil && it.Mode == Report:
		return it.reported(header, packed, err), nil
	case err != nil:
		return nil, err
	case verdict.Fault == nil:
		it.Metrics.Valid()
		it.Good.keep(it.asked, header, packed.Read)
		return it.sent(header, packed.Read, packed.Release), nil
	case it.Mode == Report:
		return it.reported(header, packed, &faulty{Verdict: verdict}), nil
	case it.Mode == Mend:
		mended, err := it.Gate.Mend(it.request.Context(), packed.Read, encoding)
		if err == nil {
			return it.mended(header, mended, verdict, packed.Release), nil
		}
		return nil, &faulty{verdict, unjudgedOf(err)}
	}
	return nil, &faulty{Verdict: verdict}
}
