package mvtgate

import (
	"encoding/json"
	"strconv"
)

// Advice is one thing that a tile had better not have. It changes no verdict. All ordinals count from 0.
type Advice struct {
	// Kind is no_layer, no_feature, equal_key or equal_id.
	Kind string `json:"kind"`
	// Layer is the layer, where the kind is of one: all but no_layer.
	Layer uint64 `json:"layer"`
	// First and Second are the places of two keys that are the same (equal_key), or of two features of one id (equal_id).
	First  uint64 `json:"first"`
	Second uint64 `json:"second"`
}

func (it Advice) words() *words {
	if known := wordsOfAdvice[it.Kind]; known != nil {
		return known
	}
	return &words{title: "No advice", sentence: "No advice has this kind."}
}

// Title is what the kind means, in some words.
func (it Advice) Title() string { return it.words().title }

// Sentence is what it is, with its numbers.
func (it Advice) Sentence() string { return fill(it.words().sentence, it.places()) }

// Place is where it is, in words.
func (it Advice) Place() string { return fill(it.words().place, it.places()) }

// Cause is what causes it in practice.
func (it Advice) Cause() string { return it.words().cause }

// Remedy is what a writer of tiles can do about it.
func (it Advice) Remedy() string { return it.words().remedy }

// String is the kind and the sentence.
func (it Advice) String() string { return it.Kind + ": " + it.Sentence() }

// Explain is title, sentence, what causes it and what to do, in five lines without a line's end after the last.
func (it Advice) Explain() string {
	return explained(it.Kind+": "+it.Title(), it.Sentence(), "Cause: "+it.Cause(), it.Remedy())
}

func (it Advice) places() []place {
	return []place{
		{"layer", strconv.FormatUint(it.Layer, 10)},
		{"first", strconv.FormatUint(it.First, 10)},
		{"second", strconv.FormatUint(it.Second, 10)},
	}
}

// readAdvice reads the library's line {"advice":[..]}.
func readAdvice(text []byte) ([]Advice, error) {
	var read struct {
		Advice []Advice `json:"advice"`
	}
	if err := json.Unmarshal(text, &read); err != nil {
		return nil, &VersionError{Said: string(text)}
	}
	for _, it := range read.Advice {
		if wordsOfAdvice[it.Kind] == nil {
			return nil, &VersionError{Said: string(text)}
		}
	}
	return read.Advice, nil
}
