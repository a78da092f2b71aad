package mvtgate

import (
	"strconv"
	"strings"
)

// words is what is said of a code, or of a kind of advice. Names in braces stand for places. The keys are those of a fault's text, in
// their order, but for those of its scope.
type words struct {
	keys                                           []string
	title, sentence, place, meaning, cause, remedy string
}

// place is a name, and what stands for it.
type place struct {
	name, text string
}

func codeText(code int) string { return strconv.Itoa(code) }

func (it *Fault) words() *words {
	if known := wordsOfFaults[it.Code]; known != nil {
		return known
	}
	return &words{title: "No fault", sentence: "No fault has this code."}
}

// Title is what is wrong, in a few words: the same for all faults of a code.
func (it *Fault) Title() string { return it.words().title }

// Sentence is what is wrong, with the fault's numbers.
func (it *Fault) Sentence() string { return fill(it.words().sentence, it.places()) }

// Place is where it is wrong, in words: "layer 0, feature 2, ring 1".
func (it *Fault) Place() string { return fill(it.words().place, it.places()) }

// Meaning is what the code means.
func (it *Fault) Meaning() string { return it.words().meaning }

// Cause is what causes faults of the code in practice.
func (it *Fault) Cause() string { return it.words().cause }

// Remedy is what a writer of tiles can do about them.
func (it *Fault) Remedy() string { return it.words().remedy }

// Explain is title, sentence, what causes a fault and what to do, in five lines without a line's end after the last. With the tile's
// bytes, where they are those of another format such as gzip ([FormatOf]), the third line names it, and the fourth says what to do
// about that; nil stands for bytes that aren't known.
func Explain(fault *Fault, tile []byte) string {
	head := codeText(fault.Code) + ": " + fault.Title()
	if format := FormatOf(fault, tile); format != nil {
		return explained(head, fault.Sentence(), format.Sentence, format.Remedy)
	}
	return explained(head, fault.Sentence(), "Cause: "+fault.Cause(), fault.Remedy())
}

func explained(head, sentence, cause, remedy string) string {
	return strings.Join([]string{head, sentence, cause, "What to do: " + remedy, "(" + counting + ")"}, "\n")
}

// places is what stands for the names in the words of the fault.
func (it *Fault) places() []place {
	var all []place
	for _, member := range it.members() {
		if edge, isEdge := member.at.(*RingEdge); isEdge {
			all = append(all, place{member.key + ".ring", strconv.FormatUint(edge.Ring, 10)},
				place{member.key + ".edge", strconv.FormatUint(edge.Edge, 10)})
		} else if member.key != "scope" && member.key != "field" {
			all = append(all, place{member.key, strings.Trim(string(member.append(nil)), `"`)})
		}
	}
	if it.Scope != "" {
		all = append(all, place{"scope", fill(scopeWords[it.Scope], all)}, place{"field", it.fieldWords()})
	}
	if it.Code == 504 {
		all = append(all, place{"x/w", quotientText(it.X, it.W)}, place{"y/w", quotientText(it.Y, it.W)})
	}
	return all
}

func (it *Fault) fieldWords() string {
	number := place{"number", strconv.FormatUint(uint64(it.Field), 10)}
	name, isKnown := fieldNames[it.Scope][it.Field]
	switch {
	case it.Field == 0:
		return keyField
	case isKnown:
		return fill(knownField, []place{number, {"name", name}})
	default:
		return fill(unknownField, []place{number})
	}
}

// quotientText is the exact quotient: a whole number, or a fraction in lowest terms. By 0 it is both numbers as they are.
func quotientText(number, by string) string {
	if exact := quotient(number, by); exact != nil {
		return exact.RatString()
	}
	return number + "/" + by
}

// fill is a text in which each name in braces is replaced by what stands for it.
func fill(text string, places []place) string {
	for _, it := range places {
		text = strings.ReplaceAll(text, "{"+it.name+"}", it.text)
	}
	return text
}
