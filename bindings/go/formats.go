package bcsproved

import (
	"bytes"
	"encoding/json"
	"fmt"
	"math"
	"sort"
	"strconv"
	"strings"
)

type kind uint8

const (
	kindUnit kind = iota
	kindBool
	kindInteger
	kindString
	kindByteString // BYTES, and lists and arrays of U8: hexadecimal digits in JSON
	kindOption
	kindList // also arrays
	kindMap
	kindTuple
	kindStruct
	kindNewtype
	kindEnum
	kindAddress    // a container that Names calls an address
	kindBigInteger // one that it calls a 256-bit integer
	kindNone       // F32, F64, CHAR: no values
)

// anyLength is the length of a list or byte string that may have any.
const anyLength = -1

// addressLength is how many bytes an address and a 256-bit integer have.
const addressLength = 32

// node is a format or a container. A TYPENAME is the node of its container, so nodes form cycles if containers do.
type node struct {
	kind   kind
	text   string // a word such as U8, or the name of a container
	json   any    // another format, as parsed JSON
	bits   int    // of an integer
	signed bool
	length int64 // of an array
	parts  []*node
	names  []string // of fields or variants, one for each part
	index  map[string]int
	sorted []int // the fields in the order of normal JSON
}

// String returns the format or container, as errors quote it.
func (n *node) String() string {
	if n.json == nil {
		return shortened(n.text)
	}
	text, _ := json.Marshal(n.json)
	return shortened(string(text))
}

// indexOf returns the index of a field or variant, or missing.
func (n *node) indexOf(name string) int {
	if i, isKnown := n.index[name]; isKnown {
		return i
	}
	return missing
}

func (n *node) is(kind kind) bool { return n != nil && n.kind == kind }

// content is the format behind newtypes. There are no values behind more of them than the greatest limits allow, such as those
// of a newtype of itself.
func (n *node) content() *node {
	for steps := 0; n.kind == kindNewtype; steps++ {
		if steps == mostDepth {
			return &node{kind: kindNone}
		}
		n = n.parts[0]
	}
	return n
}

// containers has the nodes of a registry's containers.
type containers map[string]*node

// readContainers reads the registry that Show printed. The proved parser has checked it.
func readContainers(registry string, names Names) (containers, error) {
	shown, err := parse(registry)
	if err != nil {
		return nil, err
	}
	members, all := shown.(map[string]any), containers{}
	for name := range members {
		all[name] = &node{text: name}
	}
	for name, container := range members {
		all.readContainer(all[name], container)
	}
	for _, named := range []struct {
		kind   kind
		signed bool
		names  []string
	}{{kindAddress, false, names.Addresses}, {kindBigInteger, false, names.U256}, {kindBigInteger, true, names.I256}} {
		for _, name := range named.names {
			if err := all[name].name(name, named.kind, named.signed); err != nil {
				return nil, err
			}
		}
	}
	return all, nil
}

// name gives a container of Names its own form. Only the default names may be missing.
func (n *node) name(name string, kind kind, signed bool) error {
	problem := "no newtype of 32 bytes is called %q"
	switch {
	case n.isOf32Bytes():
		n.kind, n.signed, n.bits, n.length = kind, signed, 8*addressLength, addressLength
		return nil
	case n.is(kindAddress) || n.is(kindBigInteger):
		problem = "two forms are given for %q"
	case isDefaultName(name):
		return nil
	}
	return &Error{Kind: KindRegistry, Reason: "UnknownName", Place: -1, Message: fmt.Sprintf("Names: "+problem, shortened(name))}
}

func (n *node) isOf32Bytes() bool {
	return n.is(kindNewtype) && n.parts[0].kind == kindByteString && n.parts[0].length == addressLength
}

// parse reads JSON that the proved code has accepted.
func parse(text string) (any, error) {
	decoder := json.NewDecoder(bytes.NewReader([]byte(text)))
	decoder.UseNumber()
	var value any
	err := decoder.Decode(&value)
	return value, err
}

// onlyMember returns the member of an object that has just one.
func onlyMember(object any) (string, any) {
	for name, value := range object.(map[string]any) {
		return name, value
	}
	return "", nil
}

// readContainer reads a container, or the payload of a variant, into its node.
func (all containers) readContainer(n *node, container any) {
	if _, isUnit := container.(string); isUnit {
		n.kind = kindUnit
		return
	}
	switch what, content := onlyMember(container); what {
	case "NEWTYPESTRUCT", "NEWTYPE":
		n.kind, n.parts = kindNewtype, []*node{all.format(content)}
	case "TUPLESTRUCT", "TUPLE":
		n.kind, n.parts = kindTuple, all.formats(content)
	case "STRUCT":
		n.kind = kindStruct
		for _, field := range content.([]any) {
			name, format := onlyMember(field)
			n.names, n.parts = append(n.names, name), append(n.parts, all.format(format))
		}
		n.sorted = sortedIndices(n.names)
	case "ENUM":
		n.kind = kindEnum
		for _, number := range sortedKeys(content.(map[string]any)) {
			name, payload := onlyMember(content.(map[string]any)[number])
			part := &node{text: n.text + "::" + name}
			all.readContainer(part, payload)
			n.names, n.parts = append(n.names, name), append(n.parts, part)
		}
	}
	n.index = map[string]int{}
	for i, name := range n.names {
		n.index[name] = i
	}
}

// sortedKeys returns the keys in an order that is always the same.
func sortedKeys(object map[string]any) []string {
	var keys []string
	for key := range object {
		keys = append(keys, key)
	}
	sort.Strings(keys)
	return keys
}

// sortedIndices returns the indices of names in the order of the names' bytes.
func sortedIndices(names []string) []int {
	indices := make([]int, len(names))
	for i := range indices {
		indices[i] = i
	}
	sort.Slice(indices, func(i, j int) bool { return names[indices[i]] < names[indices[j]] })
	return indices
}

func (all containers) formats(list any) []*node {
	var nodes []*node
	for _, format := range list.([]any) {
		nodes = append(nodes, all.format(format))
	}
	return nodes
}

var words = map[string]node{
	"UNIT": {kind: kindUnit}, "BOOL": {kind: kindBool}, "STR": {kind: kindString}, "BYTES": {kind: kindByteString, length: anyLength},
	"F32": {kind: kindNone}, "F64": {kind: kindNone}, "CHAR": {kind: kindNone},
}

func (all containers) format(format any) *node {
	if word, isWord := format.(string); isWord {
		n, isKnown := words[word]
		if !isKnown { // I8 to U128
			n.kind, n.signed = kindInteger, strings.HasPrefix(word, "I")
			n.bits, _ = strconv.Atoi(word[1:])
		}
		n.text = word
		return &n
	}
	what, content := onlyMember(format)
	if what == "TYPENAME" {
		return all[content.(string)]
	}
	n := &node{json: format, length: anyLength}
	switch what {
	case "OPTION":
		n.kind, n.parts = kindOption, []*node{all.format(content)}
	case "SEQ":
		n.kind, n.parts = kindList, []*node{all.format(content)}
	case "MAP":
		entry := content.(map[string]any)
		n.kind, n.parts = kindMap, []*node{all.format(entry["KEY"]), all.format(entry["VALUE"])}
	case "TUPLE":
		n.kind, n.parts = kindTuple, all.formats(content)
	case "TUPLEARRAY":
		array := content.(map[string]any)
		n.kind, n.parts = kindList, []*node{all.format(array["CONTENT"])}
		n.length = math.MaxInt64 // unless the size fits: no Go value is that long
		if size, err := strconv.ParseInt(array["SIZE"].(json.Number).String(), 10, 64); err == nil {
			n.length = size
		}
	}
	if n.kind == kindList && n.parts[0].text == "U8" && n.parts[0].kind == kindInteger {
		n.kind = kindByteString
	}
	return n
}

// positions are the names of a tuple's elements, for tags.
func (n *node) positions() []string {
	out := make([]string, len(n.parts))
	for i := range out {
		out[i] = strconv.Itoa(i)
	}
	return out
}

// takes says which Go values stand for a format.
func (n *node) takes() string {
	switch n.kind {
	case kindUnit:
		return "nil or struct{}"
	case kindBool:
		return "a bool"
	case kindInteger, kindBigInteger:
		return "an integer"
	case kindString:
		return "a string"
	case kindByteString:
		return "bytes, or Hex(…) for digits"
	case kindOption:
		return "a pointer, nil or Some"
	case kindList:
		return "a slice or an array"
	case kindTuple:
		return "a slice, an array or a struct with the tags 0, 1, .."
	case kindMap:
		return "a map or a slice of entries"
	case kindStruct:
		return "a struct or a map[string]T"
	case kindEnum:
		return "a Variant or a struct of pointers"
	case kindAddress:
		return `a string "0x…" or 32 bytes`
	case kindNewtype:
		return n.content().takes()
	}
	return "nothing"
}
