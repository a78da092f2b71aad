package relay

import (
	"net/http"
	"strings"
)

// isNotModified says whether the client has the answer already, by RFC 9110, section 13.2.2.
func isNotModified(asked, answer http.Header) bool {
	if tags := asked.Values("If-None-Match"); len(tags) > 0 {
		return hasTag(strings.Join(tags, ","), answer.Get("ETag"))
	}
	since, err := http.ParseTime(asked.Get("If-Modified-Since"))
	if err != nil {
		return false
	}
	modified, err := http.ParseTime(answer.Get("Last-Modified"))
	return err == nil && !modified.After(since)
}

// hasTag says whether a list of tags has one, by the weak comparison.
func hasTag(list, tag string) bool {
	if strings.TrimSpace(list) == "*" {
		return true
	}
	tag = strings.TrimPrefix(tag, "W/")
	for list = strings.TrimLeft(list, " \t,"); tag != "" && list != ""; list = strings.TrimLeft(list, " \t,") {
		list = strings.TrimPrefix(list, "W/")
		if !strings.HasPrefix(list, `"`) {
			return false
		}
		end := strings.IndexByte(list[1:], '"')
		if end < 0 {
			return false
		}
		if list[:end+2] == tag {
			return true
		}
		list = list[end+2:]
	}
	return false
}
