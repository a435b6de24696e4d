package bcsproved

// #include "bcs.h"
import "C"

import (
	"errors"
	"fmt"
	"strconv"
	"strings"
)

var (
	// ErrMemory: out of memory.
	ErrMemory = errors.New("bcs: out of memory")
	// ErrClosed: the registry is closed.
	ErrClosed = errors.New("bcs: the registry is closed")
	// ErrUnsupported: the processor lacks SSE4.2 or POPCNT, which the code needs on x86-64.
	ErrUnsupported = errors.New("bcs: this processor isn't supported")
)

// Kind is what is refused.
type Kind string

const (
	KindRegistry Kind = "registry" // the registry; of two registries, the older one
	KindNewer    Kind = "newer"    // the newer of two registries
	KindGrowth   Kind = "growth"   // the newer registry, since it doesn't keep what the older one has
	KindFormat   Kind = "format"
	KindLimits   Kind = "limits" // the depth is above 500
	KindText     Kind = "text"   // the JSON of a value
	KindBytes    Kind = "bytes"
	KindPath     Kind = "path"
	KindExample  Kind = "example" // the format has no such example
	KindModules  Kind = "modules" // the modules of a Move chain, or a type that is requested of them
	KindValue    Kind = "value"   // a Go value or a Go type, since it isn't one of the format
	KindStack    Kind = "stack"   // the thread has too little stack left for the call
)

// Error is a refusal.
type Error struct {
	Kind Kind

	// Reason is the name of the fault, as the program bcs prints it: "BadBool". For KindValue it is "WrongType". It is empty for
	// KindLimits and KindStack.
	Reason string

	// Place is the offset where bytes stop being a value. It is -1 for other kinds, and if the bytes encode a value whose JSON
	// would nest too deep.
	Place int

	// At says where the fault is. Of JSON, a Go value or a format it is a JSON Pointer (RFC 6901) such as /payload/args/1, which is
	// empty for the whole; of bytes the field path, such as .payload.args[1]; of a registry or growth a definition, such as
	// Shape, field side; of a path a step, such as step 2 x; of modules a JSON Pointer, or the type that was requested. Names are as
	// they are, never escaped or cut.
	At string

	// Message says what was expected there, or what is wrong. The text is for people, and may change.
	Message string
}

// Error returns the line of the refusal: refused: BadNumber at /amount: ..., or refused: BadBool at byte 3, .flags[0]: ...
// It has no control characters, and cuts long pointers.
func (e *Error) Error() string {
	var where []string
	if e.Place >= 0 {
		where = append(where, "byte "+strconv.Itoa(e.Place))
	}
	if e.At != "" {
		where = append(where, printable(shortened(e.At)))
	}
	pieces := []string{"refused"}
	if e.Reason != "" {
		pieces = append(pieces, e.Reason)
	}
	if len(where) > 0 {
		pieces[len(pieces)-1] += " at " + strings.Join(where, ", ")
	}
	if e.Message != "" {
		pieces = append(pieces, printable(e.Message))
	}
	return strings.Join(pieces, ": ")
}

// printable escapes the characters of a name that would change how a line looks.
func printable(s string) string {
	var out strings.Builder
	for _, character := range s {
		if strconv.IsPrint(character) {
			out.WriteRune(character)
		} else {
			out.WriteString(strings.Trim(strconv.QuoteRune(character), "'"))
		}
	}
	return out.String()
}

// newError returns an error with the name of the fault.
func newError(kind Kind, fault C.uint32_t) *Error {
	return &Error{Kind: kind, Reason: reason(fault), Place: -1}
}

func reason(fault C.uint32_t) string {
	if name := C.bcs_fault_text(fault); name != nil {
		return C.GoString(name)
	}
	return fmt.Sprintf("fault %d", uint32(fault))
}

// refusal returns the error of an answer, or nil if the call succeeded. The kind is what BCS_REFUSED refuses.
func (q *question) refusal(answer answer, kind Kind) error {
	switch answer.status {
	case C.BCS_DONE:
		return nil
	case C.BCS_FORMAT:
		return q.refusalOfFormat(answer.fault, q.format)
	case C.BCS_LIMITS:
		return &Error{Kind: KindLimits, Place: -1, Message: "the depth is above 500"}
	case C.BCS_REFUSED:
		return refusalOfInput(answer, kind)
	default:
		return failure(answer.status)
	}
}

// failure returns the error of a call that didn't finish, or nil.
func failure(status C.uint32_t) error {
	switch status {
	case C.BCS_DONE, C.BCS_NO:
		return nil
	case C.BCS_MEMORY:
		return ErrMemory
	case C.BCS_STACK:
		return &Error{Kind: KindStack, Place: -1, Message: "the thread has too little stack left"}
	default:
		return fmt.Errorf("bcs: unknown status %d", uint32(status))
	}
}

// refusalOfInput returns the error for an input that is refused, with what the answer reports.
func refusalOfInput(answer answer, kind Kind) *Error {
	refused := newError(kind, answer.fault)
	if kind == KindBytes && answer.fault != C.BCS_SHOWN_TOO_NESTED {
		refused.Place = int(answer.place)
	}
	refused.locate(answer.report)
	return refused
}

func refusalOfRegistry(status, fault C.uint32_t, kind Kind, registry []byte) error {
	if status != C.BCS_REGISTRY && status != C.BCS_NEWER {
		return failure(status)
	}
	return new(question).refusalOf(kind, fault, plain(C.BCS_REGISTRY_REFUSAL, registry, nil))
}

// refusalOfFormat returns the error for a format, without a message if it isn't the one that is refused.
func (q *question) refusalOfFormat(fault C.uint32_t, format []byte) error {
	asked := plain(C.BCS_FORMAT_PLACE, nil, nil)
	asked.format, asked.format_length = at(format), size(format)
	return q.refusalOf(KindFormat, fault, asked)
}

// refusalOf returns an error with what C reports about it when it is asked this.
func (q *question) refusalOf(kind Kind, fault C.uint32_t, asked C.bcs_question) error {
	refused := newError(kind, fault)
	report, answer := q.output(asked, 256)
	if err := failure(answer.status); err != nil {
		return err
	}
	refused.locate(string(report))
	return refused
}

// locate takes apart what C reports about a refusal: the place, a NUL, and the message. A name in the place may contain other
// NULs. A report is empty if there is nothing to say besides the fault.
func (e *Error) locate(report string) {
	if end := strings.LastIndexByte(report, 0); end >= 0 {
		e.At, e.Message = report[:end], report[end+1:]
	}
}
