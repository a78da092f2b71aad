package relay

import (
	"net/http"
	"net/url"
	"testing"
)

func TestATagIsFoundInAList(t *testing.T) {
	for list, wanted := range map[string]bool{
		`"a"`: true, `W/"a"`: true, `"b", "a"`: true, `"b" ,W/"a"`: true, ` * `: true, `"b,c","a"`: true, `,, "a"`: true,
		`"b"`: false, `a`: false, ``: false, `"a`: false, `"b", a"`: false, `"aa"`: false,
	} {
		if hasTag(list, `"a"`) != wanted || hasTag(list, `W/"a"`) != wanted {
			t.Error(list)
		}
	}
	if hasTag(`"a"`, "") || hasTag(`""`, "") {
		t.Error("an answer without a tag has none")
	}
}

func TestARedirectToTheServerLeadsToTheProxy(t *testing.T) {
	upstream, err := url.Parse("http://inner:3000/base/")
	if err != nil {
		t.Fatal(err)
	}
	for to, wanted := range map[string]string{
		"http://inner:3000/base/a%2Fb?c=d#e": "/a%2Fb?c=d#e",
		"http://inner:3000/base":             "/",
		"http://inner:3000/base/":            "/",
		"http://inner:3000/base//evil/":      "/evil/",
		"http://inner:3000/bases":            "http://inner:3000/bases",
		"http://inner/base/":                 "http://inner/base/",
		"https://inner:3000/base/":           "https://inner:3000/base/",
		"//inner:3000/base/":                 "//inner:3000/base/",
		"/base/a":                            "/base/a",
		"":                                   "",
	} {
		header := http.Header{}
		if to != "" {
			header.Set("Location", to)
		}
		relocate(header, upstream)
		if found := header.Get("Location"); found != wanted {
			t.Errorf("%s: %s", to, found)
		}
	}
}

func TestAModeIsRead(t *testing.T) {
	var mode Mode
	for _, name := range []string{"report", "refuse", "mend"} {
		if err := mode.UnmarshalText([]byte(name)); err != nil || string(mode) != name {
			t.Error(mode, err)
		}
	}
	if err := mode.UnmarshalText([]byte("repair")); err == nil || mode != Mend {
		t.Error(mode, err)
	}
}
