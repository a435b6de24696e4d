package bcsproved

import (
	"bytes"
	"encoding/json"
	"fmt"
	"reflect"
	"runtime"
	"strings"
	"sync"
	"testing"
)

// Outputs are shorter and longer than the room that is kept.
var lengthsOfThreads = []int{0, 1, 127, 128, 1500, 9000}

type (
	parts struct {
		B string
		A []byte
		C []uint16
		D uint64
	}
	// row is a value with its bytes, which are written out, and its normal JSON.
	row struct {
		value parts
		data  []byte
		text  string
	}
	// calling is a value that makes calls while encoding/json writes it.
	calling struct {
		registry *Registry
		other    row
		value    parts
	}
)

func rowOf(number uint16, length int) row {
	letter := byte('a' + number%26)
	octets := bytes.Repeat([]byte{letter}, length)
	wide := uint64(number) << 40
	short, part := append(uleb(length), octets...), []byte{byte(number), byte(number >> 8)}
	data := bytes.Join([][]byte{short, short, {2}, part, part, make([]byte, 5), part, {0}}, nil)
	digits := strings.Repeat(fmt.Sprintf("%x", letter), length)
	text := fmt.Sprintf(`{"a":"%s","b":"%s","c":[%d,%d],"d":"%d"}`, digits, octets, number, number, wide)
	return row{parts{string(octets), octets, []uint16{number, number}, wide}, data, text}
}

// check makes calls of each kind, some of which are refused, and returns what is wrong.
func (w row) check(r *Registry) error {
	var read parts
	typed, err1 := r.Encode("P", w.value)
	untyped, err2 := r.Encode("P", map[string]any{"d": &w.value.D, "c": []any{w.value.C[0], w.value.C[1]}, "a": w.value.A, "b": w.value.B})
	ofText, err3 := r.EncodeJSON("P", []byte(w.text))
	text, err4 := r.DecodeJSON("P", w.data)
	err5 := r.Unmarshal("P", w.data, &read)
	length, err6 := r.WithLimits(Limits{5, 20_000}).Scan("P", w.data)
	_, refused1 := r.Encode("P", map[string]any{"b": "", "a": "text", "c": []any{}, "d": 7})
	refused2 := r.Unmarshal("P", w.data[:len(w.data)-1], &read)
	for _, is := range []bool{
		bytes.Equal(typed, w.data), bytes.Equal(untyped, w.data), bytes.Equal(ofText, w.data), string(text) == w.text, reflect.DeepEqual(read, w.value),
		length == len(w.data), expect(refused1, KindValue, wrongType) == nil, expect(refused2, KindBytes, "EndOfInput") == nil && refused2.(*Error).Place == length-1,
	} {
		if !is {
			return fmt.Errorf("%x, %x, %x, %s, %v, %v, %v, %v", typed, untyped, ofText, text, read, []error{err1, err2, err3, err4, err5, err6}, refused1, refused2)
		}
	}
	return nil
}

func (c calling) MarshalJSON() ([]byte, error) {
	if err := c.other.check(c.registry); err != nil {
		return nil, err
	}
	data, err := c.registry.Encode("P", c.value)
	if err != nil {
		return nil, err
	}
	return c.registry.DecodeJSON("P", data)
}

// No bytes of two calls are mixed: of goroutines on threads of their own, and of calls within calls.
func TestThreads(t *testing.T) {
	const text = `{"P":{"STRUCT":[{"b":"STR"},{"a":"BYTES"},{"c":{"SEQ":"U16"}},{"d":"U64"}]}}`
	registries := []*Registry{open(t, text), open(t, text)}
	var group sync.WaitGroup
	for goroutine := uint16(0); goroutine < 8; goroutine++ {
		group.Add(1)
		go func(goroutine uint16) {
			defer group.Done()
			runtime.LockOSThread()
			for turn := uint16(0); turn < 16; turn++ {
				registry := registries[turn%2]
				for _, length := range lengthsOfThreads {
					w := rowOf(1000*goroutine+turn, length)
					made, err := json.Marshal([]calling{{registry, w, w.value}, {registry, rowOf(7, 3), w.value}})
					if wrong := w.check(registry); wrong != nil || err != nil || string(made) != "["+w.text+","+w.text+"]" {
						t.Errorf("%v; %s, %v", wrong, made, err)
						return
					}
				}
			}
		}(goroutine)
	}
	group.Wait()
}
