package bcsproved

import (
	"fmt"
	"reflect"
	"strings"
	"sync"
	"unicode/utf8"
)

// Hex is a byte string as hexadecimal digits of either case, without 0x.
type Hex string

// Variant is a value of an enum. The value of a unit variant is nil or struct{}{}.
type Variant struct {
	Name  string
	Value any
}

// Entry is an entry of a map. Any struct with just the fields Key and Value, in this order, is one too.
type Entry struct{ Key, Value any }

// EntryOf is an entry of a map with types of its own. A slice of them holds any map, also one whose keys can't be those of Go's.
type EntryOf[K, V any] struct {
	Key   K
	Value V
}

// Some is an option that holds a value, as Decode returns it; nil is one that doesn't. Encode also takes pointers.
type Some struct{ Value any }

// Names are containers whose values have a Go form of their own: newtypes of 32 bytes that are addresses ("0x…") or
// little-endian integers. A list that is nil is the default: "address", "u256" and "i256", as `bcs from-move` writes them.
type Names struct{ Addresses, U256, I256 []string }

var defaultNames = Names{[]string{"address"}, []string{"u256"}, []string{"i256"}}

func isDefaultName(name string) bool { return name == "address" || name == "u256" || name == "i256" }

func (names Names) orDefault() Names {
	for _, list := range []struct {
		own      *[]string
		standard []string
	}{{&names.Addresses, defaultNames.Addresses}, {&names.U256, defaultNames.U256}, {&names.I256, defaultNames.I256}} {
		if *list.own == nil {
			*list.own = list.standard
		}
	}
	return names
}

// Encode returns the bytes of a Go value. The README has a table of the types that each format takes. A value of another type
// is an *Error of KindValue.
func (r *Registry) Encode(format string, value any) ([]byte, error) {
	q, err := r.ask(format)
	if err != nil {
		return nil, err
	}
	defer q.end()
	text, err := q.textOf(value)
	if err != nil {
		return nil, err
	}
	return q.encodeJSON(text)
}

// Decode returns the Go value that the whole of data encodes. The README has the type for each format.
func (r *Registry) Decode(format string, data []byte) (any, error) {
	var value any
	err := r.Unmarshal(format, data, &value)
	return value, err
}

// DecodePrefix returns the Go value at the beginning of data, and how many bytes it has. What follows isn't read.
func (r *Registry) DecodePrefix(format string, data []byte) (any, int, error) {
	q, err := r.askAbout(format, data)
	if err != nil {
		return nil, 0, err
	}
	defer q.end()
	length, err := q.scan(data)
	if err != nil {
		return nil, 0, err
	}
	var value any
	err = q.unmarshal(data[:length], &value)
	return value, length, err
}

// Unmarshal stores the value that the whole of data encodes in the variable that the pointer leads to. A type that can't hold
// every value of the format's numbers is rejected before the bytes are read. On an error the variable stays as it was. Fields of
// a struct with the tag `bcs:"-"` stay, too, but not those of structs inside it, which are new.
func (r *Registry) Unmarshal(format string, data []byte, pointer any) error {
	q, err := r.askAbout(format, data)
	if err != nil {
		return err
	}
	defer q.end()
	return q.unmarshal(data, pointer)
}

func (q *question) unmarshal(data []byte, pointer any) error {
	codec, n, err := q.root()
	if err != nil {
		return err
	}
	variable := reflect.ValueOf(pointer)
	if variable.Kind() != reflect.Pointer || variable.IsNil() {
		return n.reject("needs a pointer that isn't nil for its value, not %s", fmt.Sprintf("%T", pointer))
	}
	decoder, err := codec.decoder(n, variable.Type().Elem())
	if err != nil {
		return err
	}
	text, err := q.decodeJSON(data)
	if err != nil {
		return err
	}
	room := reflect.New(variable.Type().Elem()).Elem()
	if err := (&reader{text: text}).whole(decoder, room); err != nil {
		return err
	}
	store(variable.Elem(), room)
	return nil
}

// store sets a variable to a decoded value. What the tag "-" leaves out of a struct stays.
func store(variable, value reflect.Value) {
	if !isPlainStruct(variable.Type()) {
		variable.Set(value)
		return
	}
	for i := 0; i < variable.NumField(); i++ {
		if variable.Type().Field(i).Tag.Get("bcs") != "-" {
			variable.Field(i).Set(value.Field(i))
		}
	}
}

// CheckType returns an error unless values of the type of `value` can be passed to Encode, and to Unmarshal by a pointer. Call
// it when your program starts.
func (r *Registry) CheckType(format string, value any) error {
	q, err := r.ask(format)
	if err != nil {
		return err
	}
	defer q.end()
	codec, n, err := q.root()
	if err != nil {
		return err
	}
	t := reflect.TypeOf(value)
	if t == nil {
		return n.mismatch(nil)
	}
	if _, err := codec.encoder(n, t); err != nil {
		return err
	}
	_, err = codec.decoder(n, t)
	return err
}

// textOf returns the JSON document of a value, which the proved call reads.
func (q *question) textOf(value any) ([]byte, error) {
	codec, n, err := q.root()
	if err != nil {
		return nil, err
	}
	w := &writer{codec: codec, out: make([]byte, 0, 512), nodes: q.nodesOfValue}
	if err := w.dynamic(n, reflect.ValueOf(value), true); err != nil {
		return nil, err
	}
	return w.out, nil
}

// mostFormats bounds how many formats a registry remembers, since they may come from strangers.
const mostFormats = 1000

// codec has the formats of a registry, and the converters that were made for pairs of a format and a Go type.
type codec struct {
	containers containers
	lock       sync.Mutex
	roots      map[string]*node
	encoders   converters[encode]
	decoders   converters[decode]
}

func (c *codec) forget() {
	c.roots, c.encoders, c.decoders = map[string]*node{}, newConverters[encode](), newConverters[decode]()
}

// codec reads the registry's formats when the first value is encoded or decoded.
func (q *question) codec() (*codec, error) {
	shared := q.shared
	shared.valuesLock.Lock()
	defer shared.valuesLock.Unlock()
	if shared.codec != nil {
		return shared.codec, nil
	}
	shown, err := q.show("", FormJSON)
	if err != nil {
		return nil, err
	}
	all, err := readContainers(shown, shared.names)
	if err != nil {
		return nil, err
	}
	shared.codec = &codec{containers: all}
	shared.codec.forget()
	return shared.codec, nil
}

// root returns the node of the format.
func (q *question) root() (*codec, *node, error) {
	c, err := q.codec()
	if err != nil {
		return nil, nil, err
	}
	if n := c.root(q.word); n != nil {
		return c, n, nil
	}
	if err := q.check(); err != nil {
		return nil, nil, err
	}
	n := c.containers[q.word]
	if strings.HasPrefix(q.word, "{") || strings.HasPrefix(q.word, `"`) {
		parsed, err := parse(q.word)
		if err != nil {
			return nil, nil, err
		}
		n = c.containers.format(parsed)
	}
	return c, c.remember(q.word, n), nil
}

// root returns the node of a format that was used before, or nil.
func (c *codec) root(format string) *node {
	c.lock.Lock()
	defer c.lock.Unlock()
	return c.roots[format]
}

// remember returns the node of a format: this one, unless another goroutine was faster.
func (c *codec) remember(format string, n *node) *node {
	c.lock.Lock()
	defer c.lock.Unlock()
	if known := c.roots[format]; known != nil {
		return known
	}
	if len(c.roots) >= mostFormats {
		c.forget()
	}
	c.roots[format] = n
	return n
}

// reject returns the error for a type or a value that can't stand for the format. Names in it may be long and strange.
func (n *node) reject(problem string, arguments ...any) *Error {
	for i, argument := range arguments {
		switch argument := argument.(type) {
		case string:
			arguments[i] = shortened(argument)
		case reflect.Type:
			arguments[i] = shortened(argument.String())
		}
	}
	return &Error{Kind: KindValue, Reason: wrongType, Place: -1, Message: n.String() + " " + fmt.Sprintf(problem, arguments...)}
}

// mostQuoted is how many bytes of a name an error quotes.
const mostQuoted = 200

// shortened returns the whole characters that fit, as the program bcs does.
func shortened(s string) string {
	if len(s) <= mostQuoted {
		return s
	}
	end := mostQuoted
	for end > 0 && !utf8.RuneStart(s[end]) {
		end--
	}
	return s[:end] + "...(cut)"
}

// mismatch returns the error for another type than those that the format takes.
func (n *node) mismatch(t reflect.Type) *Error {
	found := "nil"
	if t != nil {
		found = t.String()
	}
	if n.content().kind == kindNone {
		return n.reject("has no values, not %s", found)
	}
	return n.reject("takes %s, not %s", n.takes(), found)
}

// wrongType is the reason of errors of KindValue.
const wrongType = "WrongType"
