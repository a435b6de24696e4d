package bcsproved

/*
#include <stddef.h>
#include <stdlib.h>
#include "bcs.h"

#define AT(member, offset) _Static_assert(offsetof(bcs_question, member) == (offset), "bcs_question." #member)
AT(size, 0);
AT(call, 4);
AT(number, 8);
AT(second_number, 12);
AT(depth, 16);
AT(nodes, 20);
AT(format, 24);
AT(format_length, 24 + sizeof(void *));
AT(first, 24 + 2 * sizeof(void *));
AT(first_length, 24 + 3 * sizeof(void *));
AT(second, 24 + 4 * sizeof(void *));
AT(second_length, 24 + 5 * sizeof(void *));
AT(views, 24 + 6 * sizeof(void *));
AT(views_length, 24 + 7 * sizeof(void *));
_Static_assert(sizeof(bcs_question) == 24 + 8 * sizeof(void *), "bcs_question");

// Go passes no pointer to a struct with pointers to its memory. So it passes the struct, and the pointer to that is C's.
static bcs_answer ask(bcs_handle *handle, bcs_question question, uint8_t *out, size_t out_length, uint8_t *message,
                      size_t message_length) {
    question.size = sizeof question;
    return bcs_ask(handle, &question, out, out_length, message, message_length);
}
*/
import "C"

import (
	"math"
	"runtime"
	"sync"
	"unsafe"
)

// question is a call in progress, with its format and limits. It holds the registry's lock until end, so Close waits for it. What
// a call needs of other calls it asks of its question: the lock isn't taken twice.
type question struct {
	shared       *shared
	handle       *C.bcs_handle
	word         string // the format, as the caller wrote it
	format       []byte // its JSON
	depth, nodes C.uint32_t
	nodesOfValue uint32 // that a value of Go may have
}

// answer is what C answers.
type answer struct {
	status, fault C.uint32_t
	place         C.uint64_t
	length        C.size_t
	report        string // of a refusal: a place, a NUL, and a message
}

// defaultNodesOfValue is low, since few objects have any number of nodes if pointers share them.
const defaultNodesOfValue = 1 << 24

// ask begins a call that reads no bytes.
func (r *Registry) ask(format string) (*question, error) {
	limits, nodesOfValue := StandardLimits(), uint32(defaultNodesOfValue)
	if r.limits != nil {
		limits, nodesOfValue = *r.limits, r.limits.Nodes
	}
	r.shared.lock.RLock()
	if r.shared.handle == nil {
		r.shared.lock.RUnlock()
		return nil, ErrClosed
	}
	return &question{
		shared: r.shared, handle: r.shared.handle, word: format, format: formatJSON(format),
		depth: C.uint32_t(limits.Depth), nodes: C.uint32_t(limits.Nodes), nodesOfValue: nodesOfValue,
	}, nil
}

// askAbout begins a call that reads bytes. By default it limits the nodes, since few bytes can encode many.
func (r *Registry) askAbout(format string, data []byte) (*question, error) {
	q, err := r.ask(format)
	if err == nil && r.limits == nil {
		q.nodes = C.bcs_handle_nodes_for(q.handle, size(data))
	}
	return q, err
}

// end ends a call. Up to here the registry is reachable, so its finalizer doesn't run.
func (q *question) end() {
	q.shared.lock.RUnlock()
	runtime.KeepAlive(q.shared)
}

// about returns a question about these inputs as values of the format.
func (q *question) about(call C.uint32_t, first, second []byte) C.bcs_question {
	asked := plain(call, first, second)
	asked.format, asked.format_length = at(q.format), size(q.format)
	asked.depth, asked.nodes = q.depth, q.nodes
	return asked
}

// plain returns a question without a format.
func plain(call C.uint32_t, first, second []byte) C.bcs_question {
	return C.bcs_question{
		call: call, first: at(first), first_length: size(first), second: at(second), second_length: size(second),
	}
}

// formatJSON returns the JSON of a format. A character of a name needs at most six bytes there.
func formatJSON(format string) []byte {
	word := []byte(format)
	out := make([]byte, 6*len(word)+len(`{"TYPENAME":""}`))
	return out[:C.bcs_format((*C.char)(unsafe.Pointer(at(word))), size(word), at(out), size(out))]
}

// at returns the address of a slice's bytes. C doesn't keep it after the call.
func at(bytes []byte) *C.uint8_t {
	if len(bytes) == 0 {
		return nil
	}
	return (*C.uint8_t)(unsafe.Pointer(&bytes[0]))
}

func size(bytes []byte) C.size_t {
	return C.size_t(len(bytes))
}

// mostGuessed bounds the room that is made before a call has said how much it needs.
const mostGuessed = 1 << 24

// guess returns room for an output that has about `times` the length of the input.
func guess(length, times int) C.size_t {
	if length > mostGuessed/times {
		return mostGuessed
	}
	return C.size_t(times*length + 256)
}

// messages are room for what most refusals report.
var messages = sync.Pool{New: func() any { return new([256]byte) }}

// ask asks C, and if a refusal has a longer message, once more with room for that.
func (q *question) ask(asked C.bcs_question, out []byte) answer {
	kept := messages.Get().(*[256]byte)
	defer messages.Put(kept)
	message := kept[:]
	for {
		told := C.ask(q.handle, asked, at(out), size(out), at(message), size(message))
		whole := answer{told.status, told.fault, told.place, told.length, ""}
		if told.status != C.BCS_REFUSED || !hasMemory(told.length) {
			return whole
		}
		if told.length <= size(message) {
			whole.report = string(message[:told.length])
			return whole
		}
		message = make([]byte, told.length)
	}
}

// output asks for an output: once with room for this length, and again if that is too short.
func (q *question) output(asked C.bcs_question, room C.size_t) ([]byte, answer) {
	for {
		if !hasMemory(room) {
			return nil, answer{status: C.BCS_MEMORY}
		}
		out := make([]byte, room)
		answer := q.ask(asked, out)
		switch {
		case answer.status == C.BCS_SHORT:
			room = answer.length
		case answer.status != C.BCS_DONE:
			return nil, answer
		case answer.length < room/2: // don't keep what isn't used
			return append([]byte{}, out[:answer.length]...), answer
		default:
			return out[:answer.length:answer.length], answer
		}
	}
}

// hasMemory reports whether C can get that much. Go would end the program where it can't.
func hasMemory(length C.size_t) bool {
	if length <= mostGuessed {
		return true
	}
	if length > math.MaxInt {
		return false
	}
	block := C.calloc(1, length)
	C.free(block)
	return block != nil
}
