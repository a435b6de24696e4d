// Package bcsproved encodes and decodes Binary Canonical Serialization (BCS), driven by serde-reflection registries. It calls
// proved code by cgo. The README says what is proved, and which systems the package runs on.
//
// Encode takes Go values, and Decode and Unmarshal return them. EncodeJSON and DecodeJSON take and return JSON. A format is the
// name of a container, such as Payment; or, if it begins with { or ", it is JSON, such as {"SEQ":"U8"} or "U8".
//
// If a call refuses its input, its error is an *Error, which says why and where. Other errors are ErrMemory, ErrClosed and
// ErrUnsupported.
package bcsproved

// #include "bcs.h"
import "C"

import (
	"runtime"
	"strings"
	"sync"
)

// Limits restrict the values that a call accepts.
type Limits struct {
	Depth uint32 // how deeply containers may nest, at most 500
	Nodes uint32 // how many nodes a value may have
}

// StandardLimits returns the widest limits: 500 open containers and 4294967295 nodes. A few bytes can encode a value with that
// many nodes, so don't use it for bytes from strangers.
func StandardLimits() Limits {
	return Limits{Depth: C.BCS_DEPTH, Nodes: C.BCS_NODES}
}

// Form is how Explain prints.
type Form uint32

const (
	FormWays  Form = C.BCS_WAYS  // a line for each piece: its place, its bytes, its kind, and the names that lead to it
	FormPaths Form = C.BCS_PATHS // the same, followed by the path for Part
	FormTree  Form = C.BCS_TREE  // indented by the depth of the piece
	FormJSON  Form = C.BCS_JSON  // a JSON object per line
)

// Part is a part of a value's bytes. Data is a slice of the bytes that were passed, and begins Place bytes after their start.
type Part struct {
	Place int
	Data  []byte
}

// Explanation shows bytes piece by piece. Damage says where they stop being a value of the format; it is nil if they are one.
type Explanation struct {
	Text   string
	Damage *Error
}

// Registry is an open registry. Any number of goroutines may use it at the same time.
type Registry struct {
	shared *shared
	limits *Limits // nil: the default
}

// shared is what a Registry has in common with those that WithLimits makes of it. Calls hold the lock for reading, so close
// waits for them. The handle is nil if the registry is closed.
type shared struct {
	lock       sync.RWMutex
	handle     *C.bcs_handle
	names      Names
	valuesLock sync.Mutex
	codec      *codec // nil until the first value
}

func (s *shared) close() {
	s.lock.Lock()
	defer s.lock.Unlock()
	C.bcs_close(s.handle)
	s.handle = nil
}

var isSupported = C.bcs_is_supported() != 0

// Open reads the JSON of a registry. It takes at most one Names, which names the containers that have a Go form of their own.
func Open(registry []byte, names ...Names) (*Registry, error) {
	if !isSupported {
		return nil, ErrUnsupported
	}
	if len(names) > 1 {
		return nil, &Error{Kind: KindRegistry, Reason: "UnknownName", Place: -1, Message: "Names: Open takes at most one"}
	}
	var own Names
	if len(names) == 1 {
		own = names[0]
	}
	var handle *C.bcs_handle
	answer := C.bcs_open(&handle, at(registry), size(registry))
	if answer.status != C.BCS_DONE {
		return nil, refusalOfRegistry(answer.status, answer.fault, KindRegistry, registry)
	}
	s := &shared{handle: handle, names: own.orDefault()}
	runtime.SetFinalizer(s, (*shared).close)
	opened := &Registry{shared: s}
	if len(names) == 0 {
		return opened, nil
	}
	if err := opened.checkNames(); err != nil {
		s.close()
		return nil, err
	}
	return opened, nil
}

// checkNames returns an error if the registry lacks a container of Names.
func (r *Registry) checkNames() error {
	q, err := r.ask("")
	if err != nil {
		return err
	}
	defer q.end()
	_, err = q.codec()
	return err
}

// Close frees the memory of the registry, also of those that WithLimits made of it. It waits for the calls that are running;
// later ones return ErrClosed. Without Close, the garbage collector frees the memory. The error is always nil.
func (r *Registry) Close() error {
	r.shared.close()
	return nil
}

// WithLimits returns the same registry with other limits. Without it, Depth is 500, and Nodes is 4294967295 where a call reads
// JSON; where it reads bytes, 16 for each byte plus 65,536, or fewer if the registry has names of more than 64 bytes.
func (r *Registry) WithLimits(limits Limits) *Registry {
	return &Registry{shared: r.shared, limits: &limits}
}

// Check returns an error if the format isn't one of the registry.
func (r *Registry) Check(format string) error {
	q, err := r.ask(format)
	if err != nil {
		return err
	}
	defer q.end()
	return q.check()
}

func (q *question) check() error {
	return q.refusal(q.ask(q.about(C.BCS_CHECK, nil, nil), nil), KindFormat)
}

// EncodeJSON returns the bytes of the value that a JSON document represents.
func (r *Registry) EncodeJSON(format string, json []byte) ([]byte, error) {
	q, err := r.ask(format)
	if err != nil {
		return nil, err
	}
	defer q.end()
	return q.encodeJSON(json)
}

func (q *question) encodeJSON(json []byte) ([]byte, error) {
	out, answer := q.output(q.about(C.BCS_TO_BCS, json, nil), guess(len(json), 1))
	return out, q.refusal(answer, KindText)
}

// DecodeJSON returns the one normal JSON document of the value that the whole of data encodes.
func (r *Registry) DecodeJSON(format string, data []byte) ([]byte, error) {
	q, err := r.askAbout(format, data)
	if err != nil {
		return nil, err
	}
	defer q.end()
	return q.decodeJSON(data)
}

func (q *question) decodeJSON(data []byte) ([]byte, error) {
	out, answer := q.output(q.about(C.BCS_FROM_BCS, data, nil), guess(len(data), 4))
	return out, q.refusal(answer, KindBytes)
}

// DecodePrefixJSON returns the normal JSON document of the value at the beginning of data, and how many bytes it has. What
// follows isn't read.
func (r *Registry) DecodePrefixJSON(format string, data []byte) ([]byte, int, error) {
	q, err := r.askAbout(format, data)
	if err != nil {
		return nil, 0, err
	}
	defer q.end()
	length, err := q.scan(data)
	if err != nil {
		return nil, 0, err
	}
	json, err := q.decodeJSON(data[:length])
	return json, length, err
}

// NormaliseJSON returns the one normal JSON document of the value that a JSON document represents.
func (r *Registry) NormaliseJSON(format string, json []byte) ([]byte, error) {
	q, err := r.ask(format)
	if err != nil {
		return nil, err
	}
	defer q.end()
	out, answer := q.output(q.about(C.BCS_NORMALISE, json, nil), guess(len(json), 1))
	return out, q.refusal(answer, KindText)
}

// EqualJSON reports whether two JSON documents represent equal values.
func (r *Registry) EqualJSON(format string, first, second []byte) (bool, error) {
	q, err := r.ask(format)
	if err != nil {
		return false, err
	}
	defer q.end()
	answer := q.ask(q.about(C.BCS_COMPARE, first, second), nil)
	if answer.status == C.BCS_NO {
		return false, nil
	}
	err = q.refusal(answer, KindText)
	return err == nil, err
}

// Scan returns how many bytes the value at the beginning of data has.
func (r *Registry) Scan(format string, data []byte) (int, error) {
	q, err := r.askAbout(format, data)
	if err != nil {
		return 0, err
	}
	defer q.end()
	return q.scan(data)
}

// Which returns the containers that data is exactly one value of, the likeliest first: their names, as `bcs which` prints them.
func (r *Registry) Which(data []byte) ([]string, error) {
	q, err := r.askAbout(`"UNIT"`, data)
	if err != nil {
		return nil, err
	}
	defer q.end()
	out, answer := q.output(q.about(C.BCS_CANDIDATES, data, nil), 1024)
	return lines(out), q.refusal(answer, KindBytes)
}

func (q *question) scan(data []byte) (int, error) {
	answer := q.ask(q.about(C.BCS_SCAN, data, nil), nil)
	if err := q.refusal(answer, KindBytes); err != nil {
		return 0, err
	}
	return int(answer.length), nil
}

// Part returns the part to which the path leads, in the value at the beginning of data. It returns nil if the path leads
// nowhere. Paths are those of `bcs part`: "." for the whole value, or steps such as inner/2/inner or key:0161, where the key's
// bytes are hexadecimal digits.
func (r *Registry) Part(format string, data []byte, path string) (*Part, error) {
	return r.find(C.BCS_PART, format, data, C.BCS_STEPS, path)
}

// PartByName is Part with the name of the part, as [Registry.Explain] prints it: .payload::EntryFunction.args[0].
func (r *Registry) PartByName(format string, data []byte, name string) (*Part, error) {
	return r.find(C.BCS_PART_NAMED, format, data, C.BCS_NAME, name)
}

// PartByPointer is Part with a JSON Pointer into the value's JSON document, such as /payload/EntryFunction/args/0.
func (r *Registry) PartByPointer(format string, data []byte, pointer string) (*Part, error) {
	return r.find(C.BCS_PART_NAMED, format, data, C.BCS_POINTER, pointer)
}

// Content returns the content of the byte string to which the path leads: its bytes without the length before them. The part has to
// be of the format BYTES, STR, or a list or an array of U8; for any other the reason of the error is NoContent.
func (r *Registry) Content(format string, data []byte, path string) (*Part, error) {
	return r.find(C.BCS_CONTENT, format, data, C.BCS_STEPS, path)
}

// ContentByName is Content with the name of the part, as [Registry.Explain] prints it.
func (r *Registry) ContentByName(format string, data []byte, name string) (*Part, error) {
	return r.find(C.BCS_CONTENT, format, data, C.BCS_NAME, name)
}

// ContentByPointer is Content with a JSON Pointer into the value's JSON document.
func (r *Registry) ContentByPointer(format string, data []byte, pointer string) (*Part, error) {
	return r.find(C.BCS_CONTENT, format, data, C.BCS_POINTER, pointer)
}

// find returns the part that a call finds by this name.
func (r *Registry) find(call C.uint32_t, format string, data []byte, notation C.uint32_t, name string) (*Part, error) {
	q, err := r.askAbout(format, data)
	if err != nil {
		return nil, err
	}
	defer q.end()
	text := []byte(name)
	asked := q.about(call, data, text)
	asked.number = notation
	return q.part(q.ask(asked, nil), data, notation, text)
}

// part returns the part of an answer, or nil.
func (q *question) part(answer answer, data []byte, notation C.uint32_t, name []byte) (*Part, error) {
	switch {
	case answer.status == C.BCS_NO:
		return nil, nil
	case answer.status == C.BCS_PATH && notation == C.BCS_STEPS:
		return nil, q.refusalOf(KindPath, answer.fault, plain(C.BCS_PATH_PLACE, nil, name))
	case answer.status == C.BCS_PATH && notation == C.BCS_NAME:
		return nil, badPath(answer.fault, "expected a name such as .payload.args[1]")
	case answer.status == C.BCS_PATH:
		return nil, badPath(answer.fault, "expected a JSON Pointer such as /payload/args/1")
	case answer.status == C.BCS_REFUSED && answer.fault == C.BCS_PATH_NO_CONTENT:
		return nil, badPath(answer.fault, "expected a part that is BYTES, STR, or a list or an array of U8")
	}
	if err := q.refusal(answer, KindBytes); err != nil {
		return nil, err
	}
	place, end := int(answer.place), int(answer.place)+int(answer.length)
	return &Part{Place: place, Data: data[place:end:end]}, nil
}

func badPath(fault C.uint32_t, message string) *Error {
	refused := newError(KindPath, fault)
	refused.Message = message
	return refused
}

// Explain shows data piece by piece, as `bcs explain` prints it. Damaged bytes aren't an error of the call.
func (r *Registry) Explain(format string, data []byte, form Form) (*Explanation, error) {
	q, err := r.askAbout(format, data)
	if err != nil {
		return nil, err
	}
	defer q.end()
	out, answer := q.output(q.explains(data, C.uint32_t(form), nil), guess(len(data), 64))
	return q.explanation(out, answer, data)
}

// explains returns the question for an explanation.
func (q *question) explains(data []byte, form C.uint32_t, views []byte) C.bcs_question {
	asked := q.about(C.BCS_EXPLAIN, data, nil)
	asked.number, asked.views, asked.views_length = form, at(views), size(views)
	return asked
}

func (q *question) explanation(out []byte, answer answer, data []byte) (*Explanation, error) {
	if err := q.refusal(answer, KindBytes); err != nil {
		return nil, err
	}
	explanation := &Explanation{Text: string(out)}
	if answer.fault == C.BCS_FAULT_NONE {
		return explanation, nil
	}
	report, stop := q.output(q.about(C.BCS_STOP_REFUSAL, data, nil), 256)
	if err := failure(stop.status); err != nil {
		return nil, err
	}
	if stop.place == answer.place { // of bytes inside of a byte string, C reports nothing
		answer.report = string(report)
	}
	explanation.Damage = refusalOfInput(answer, KindBytes)
	return explanation, nil
}

// Grows returns an error unless the newer registry keeps everything that the older one has, so that every old value stays
// valid. The kind of the error is KindGrowth; or KindRegistry or KindNewer if one of them isn't a registry.
func Grows(older, newer []byte) error {
	if !isSupported {
		return ErrUnsupported
	}
	answer := new(question).ask(plain(C.BCS_GROWS, older, newer), nil)
	switch answer.status {
	case C.BCS_DONE:
		return nil
	case C.BCS_REFUSED:
		return refusalOfInput(answer, KindGrowth)
	case C.BCS_NEWER:
		return refusalOfRegistry(answer.status, answer.fault, KindNewer, newer)
	default:
		return refusalOfRegistry(answer.status, answer.fault, KindRegistry, older)
	}
}

// lines returns the lines of a text.
func lines(text []byte) []string {
	return strings.FieldsFunc(string(text), func(r rune) bool { return r == '\n' })
}

// Differences returns all differences between two registries, one per line, as `bcs grows --list` prints them.
func Differences(older, newer []byte) ([]string, error) {
	if !isSupported {
		return nil, ErrUnsupported
	}
	out, answer := new(question).output(plain(C.BCS_GROWTH_LIST, older, newer), 4096)
	switch answer.status {
	case C.BCS_DONE:
		return lines(out), nil
	case C.BCS_NEWER:
		return nil, refusalOfRegistry(answer.status, answer.fault, KindNewer, newer)
	default:
		return nil, refusalOfRegistry(answer.status, answer.fault, KindRegistry, older)
	}
}

// Schema returns a JSON Schema of the JSON documents of the format's values.
func (r *Registry) Schema(format string) ([]byte, error) {
	q, err := r.ask(format)
	if err != nil {
		return nil, err
	}
	defer q.end()
	out, answer := q.output(q.about(C.BCS_SCHEMA, nil, nil), 4096)
	return out, q.refusal(answer, KindFormat)
}

// ExampleOptions say which example Example makes.
type ExampleOptions struct {
	Variant string // selects this variant of the enum that the format names
	Full    bool   // gives each option, list and map an element
}

// Example returns the JSON document of a value of the format, as `bcs example` prints it.
func (r *Registry) Example(format string, options ExampleOptions) ([]byte, error) {
	q, err := r.ask(format)
	if err != nil {
		return nil, err
	}
	defer q.end()
	asked := q.about(C.BCS_EXAMPLE, nil, []byte(options.Variant))
	if options.Full {
		asked.number = C.BCS_FULL
	}
	out, answer := q.output(asked, 1024)
	return out, q.refusal(answer, KindExample)
}

// Show returns the registry in readable form, as `bcs show` prints it; or, if name isn't empty, only that container with what
// it depends on. With FormJSON it is compact JSON.
func (r *Registry) Show(name string, form Form) (string, error) {
	q, err := r.ask("")
	if err != nil {
		return "", err
	}
	defer q.end()
	return q.show(name, form)
}

func (q *question) show(name string, form Form) (string, error) {
	asked := plain(C.BCS_SHOW, nil, []byte(name))
	asked.number = C.uint32_t(form)
	out, answer := q.output(asked, 4096)
	if answer.status == C.BCS_FORMAT {
		refused := newError(KindFormat, answer.fault)
		refused.Message = "no container is called " + shortened(name)
		return "", refused
	}
	return string(out), q.refusal(answer, KindFormat)
}
