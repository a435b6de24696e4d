package bcsproved

import (
	"bytes"
	"encoding/json"
	"errors"
	"fmt"
	"math/big"
	"math/rand"
	"net"
	"reflect"
	"runtime/debug"
	"strings"
	"sync"
	"testing"
	"time"
	"unsafe"
)

type (
	box[T any]       struct{ Value T }
	pairOf[K, V any] struct {
		Key   K
		Value V
	}
	rows     []rows
	table    map[string]table
	pointer  *pointer
	chain    struct{ Next *chain }
	loop     struct{ Next **loop }
	both     struct{ Key, Value any }
	number64 uint64
	digits   []byte
	hash     [4]byte
	flag     bool
	empty    interface{}
	named2   struct {
		pay
		Amount uint64
	}
	points struct{ *pay }
	secret struct {
		To     string
		amount uint64
		_      struct{}
	}
	left struct {
		To     string
		Amount uint64
		Lock   sync.Mutex `bcs:"-"`
		hidden chan int   `bcs:"-"`
	}
	Key      struct{ A uint8 }
	embedKey struct {
		Key
		Value uint8
	}
	number65 struct{ big.Int }
)

func (n number64) String() string                  { return "no number" }
func (d digits) MarshalText() ([]byte, error)      { panic("called") }
func (h *hash) UnmarshalText([]byte) error         { panic("called") }
func (c *chain) MarshalJSON() ([]byte, error)      { panic("called") }
func (e *embedKey) MarshalBinary() ([]byte, error) { panic("called") }

// hardValues are of types that reflect makes hard.
func hardValues() []any {
	cyclic := &chain{}
	cyclic.Next = cyclic
	looped := &loop{}
	next := looped
	looped.Next = &next
	var self any
	self = &self
	list := rows{nil}
	list[0] = list
	tables := table{}
	tables["next"] = tables
	var me pointer
	me = &me
	var nilChain *chain
	var nilAny any
	var nilError error
	return []any{
		uintptr(1), complex64(1), complex(1, 2), 1.5, float32(1), unsafe.Pointer(cyclic), make(chan int), (chan int)(nil), func() {}, (func())(nil),
		map[string]any(nil), map[uint8]uint8(nil), map[any]any{}, map[any]any{nil: nil}, map[any]any{1: 2, "a": 3}, []any(nil), []any{nil}, []any{[]any{nil}},
		cyclic, *cyclic, looped, self, &self, []any{self}, map[string]any{"to": self, "amount": self}, Some{self}, Some{Some{nil}}, Variant{"Num", self},
		Variant{"Num", &Variant{"Num", 7}}, list, rows(nil), rows{rows{}, nil}, tables, table(nil), me, pointer(nil), nilChain, &nilChain, &nilAny, &nilError,
		errors.New("x"), []error{nil}, []error{errors.New("x")}, struct{ X fmt.Stringer }{}, empty(1), []empty{1}, []fmt.Stringer{number64(1)},
		box[int]{1}, box[any]{box[any]{nil}}, &box[*box[int]]{}, []pairOf[string, uint8]{{"a", 1}}, pairOf[string, uint8]{"a", 1}, []pairOf[any, any]{{"a", 1}},
		[]both{{"a", self}}, [0]int{}, [4]uint8{}, [4]any{1, 2, 3, self}, [2][2]uint16{}, [1 << 20]struct{}{}, [0]func(){}, [3]chan int{},
		number64(1), []number64{1}, digits{1, 2}, hash{1, 2, 3, 4}, &hash{}, flag(true), net.IP{1, 2, 3, 4}, net.IPNet{}, json.Number("1"), []json.Number{"1"},
		json.RawMessage("1"), []json.RawMessage{nil}, named2{}, points{}, &points{}, points{&pay{"a", 1}}, secret{}, &left{To: "bob", Amount: 7}, embedKey{}, []embedKey{{}},
		struct{ Dot **struct{} }{}, struct{ Dot, Num *any }{}, struct{ Dot *int }{}, number65{}, &number65{}, big.NewFloat(1), big.NewRat(1, 2), []*big.Int{nil}, []*big.Int{big.NewInt(1)}, []big.Int{*big.NewInt(1)}, (**big.Int)(nil),
		ptr(big.NewInt(1)), ptr((*big.Int)(nil)), time.Time{}, time.Second, time.Monday, reflect.ValueOf(1), reflect.TypeOf(1), reflect.Bool, new(sync.Mutex).TryLock,
		map[float64]int{}, map[Key]int{{}: 1}, map[[2]any]int{{1, 2}: 1}, map[struct{ A any }]int{{1}: 1}, map[struct{ A any }]int{{self}: 1}, map[[1]*int]int{{nil}: 1},
		map[*string]uint8{ptr("a"): 1}, map[any]uint8{ptr("a"): 1}, map[struct{ A [1]any }]uint8{{[1]any{ptr("a")}}: 1}, map[Variant]uint8{{"Dot", nil}: 1},
		map[Some]uint8{{1}: 1}, map[bool]uint8{true: 1}, map[chan int]uint8{nil: 1}, map[interface{ Error() string }]uint8{nil: 1}, map[Hex]any{"to": 1}, map[myStr]any{"to": "a", "amount": 7},
	}
}

// tried calls what may not panic, and fails unless the error is nil or one of a value, with a JSON Pointer.
func tried(t *testing.T, what string, call func() error) (err error) {
	t.Helper()
	defer func() {
		if fault := recover(); fault != nil {
			t.Fatalf("%s: panic: %v", what, fault)
		}
	}()
	start := time.Now()
	err = call()
	var refused *Error
	if err != nil && (!errors.As(err, &refused) || refused.Kind == KindValue && refused.At != "" && refused.At[0] != '/') {
		t.Fatalf("%s: %v", what, err)
	}
	if took := time.Since(start); took > time.Minute || len(fmt.Sprint(err)) > 20_000 {
		t.Fatalf("%s: after %s: %.300v", what, took, err)
	}
	return err
}

// samples returns the encodings of the examples of a format, which may have none.
func samples(registry *Registry, format string) (out [][]byte) {
	for _, options := range []ExampleOptions{{}, {Full: true}} {
		if text, err := registry.Example(format, options); err == nil {
			if data, err := registry.EncodeJSON(format, text); err == nil {
				out = append(out, data)
			}
		}
	}
	return out
}

// bothWays encodes a value, decodes bytes into a variable of its type, and returns how many calls succeeded. What was decoded has
// the same bytes again, and what was encoded decodes.
func bothWays(t *testing.T, registry *Registry, format string, value any, data [][]byte) (done int) {
	t.Helper()
	what := fmt.Sprintf("%T at %.200s", value, format)
	var encoded []byte
	if tried(t, "Encode: "+what, func() (err error) { encoded, err = registry.Encode(format, value); return err }) == nil {
		if _, err := registry.Decode(format, encoded); err != nil {
			t.Fatalf("%s: %x isn't a value: %v", what, encoded, err)
		}
		done++
	}
	checked := tried(t, "CheckType: "+what, func() error { return registry.CheckType(format, value) })
	if reflect.TypeOf(value) == nil {
		return done
	}
	for _, data := range data {
		variable := reflect.New(reflect.TypeOf(value))
		if tried(t, "Unmarshal: "+what, func() error { return registry.Unmarshal(format, data, variable.Interface()) }) != nil {
			continue
		}
		again, err := registry.Encode(format, variable.Elem().Interface())
		if err != nil || !bytes.Equal(again, data) || checked != nil {
			t.Fatalf("%s: %x became %v, and that %x: %v, %v", what, data, variable.Elem(), again, err, checked)
		}
		done++
	}
	return done
}

// Types that reflect makes hard are values, or rejected.
func TestHardTypes(t *testing.T) {
	registry := open(t, valueShapes).WithLimits(Limits{500, 100_000})
	formats := []string{"L", "C", "Tree", "Nope", "{", `"F32"`, `{"OPTION":"F32"}`, `{"SEQ":"F64"}`, `{"SEQ":"UNIT"}`, `{"OPTION":{"TYPENAME":"C"}}`,
		`{"MAP":{"KEY":{"TUPLE":["U8"]},"VALUE":"UNIT"}}`, `{"MAP":{"KEY":{"SEQ":"U8"},"VALUE":"U8"}}`, `{"MAP":{"KEY":{"OPTION":"STR"},"VALUE":"U8"}}`,
		`{"MAP":{"KEY":{"TYPENAME":"E"},"VALUE":"U8"}}`, `{"TUPLEARRAY":{"CONTENT":{"OPTION":"U8"},"SIZE":2}}`}
	for _, format := range formatsOfTable {
		formats = append(formats, format)
	}
	done, values := 0, append(hardValues(), nil)
	for _, format := range formats {
		data := samples(registry, format)
		for _, value := range values {
			done += bothWays(t, registry, format, value, data)
		}
	}
	if done < 300 {
		t.Errorf("only %d calls succeeded", done)
	}
}

// hardTypes replace a part of a type that fits.
var hardTypes = func() []reflect.Type {
	types := []reflect.Type{typeAny, typeSome, typeVariant, typeHex, typeBig, typeUnit, reflect.TypeOf((*error)(nil)).Elem(), reflect.TypeOf((*empty)(nil)).Elem()}
	for _, value := range hardValues() {
		types = append(types, reflect.TypeOf(value))
	}
	return types
}()

// changedType changes a type that holds a format's values, at a random place.
func changedType(r *rand.Rand, t reflect.Type) reflect.Type {
	switch r.Intn(8) {
	case 0:
		return hardTypes[r.Intn(len(hardTypes))]
	case 1:
		return reflect.PointerTo(t)
	case 2:
		return []reflect.Type{reflect.ArrayOf(r.Intn(3), t), reflect.SliceOf(t), reflect.ChanOf(reflect.BothDir, t)}[r.Intn(3)]
	case 3:
		return reflect.FuncOf([]reflect.Type{t}, nil, false)
	}
	switch t.Kind() {
	case reflect.Pointer:
		return reflect.PointerTo(changedType(r, t.Elem()))
	case reflect.Slice:
		if isEntry(t.Elem()) && t.Elem().Field(0).Type.Comparable() && r.Intn(2) == 0 {
			return reflect.MapOf(t.Elem().Field(0).Type, t.Elem().Field(1).Type) // of keys that are hard
		}
		return reflect.SliceOf(changedType(r, t.Elem()))
	case reflect.Array:
		return reflect.ArrayOf(t.Len(), changedType(r, t.Elem()))
	case reflect.Struct:
		return changedStruct(r, t)
	}
	return t
}

func changedStruct(r *rand.Rand, t reflect.Type) reflect.Type {
	if t.NumField() == 0 || t == typeVariant || t == typeBig || t == typeSome {
		return t
	}
	var fields []reflect.StructField
	for i := 0; i < t.NumField(); i++ {
		fields = append(fields, t.Field(i))
	}
	field := &fields[r.Intn(len(fields))]
	switch r.Intn(8) {
	case 0:
		field.Name, field.PkgPath = "hidden", "fodrascu.example/bcsproved"
	case 1:
		field.Tag = `bcs:"-"`
	case 2:
		field.Tag = ""
	default:
		field.Type = changedType(r, field.Type)
	}
	return reflect.StructOf(fields)
}

// filled stores random values in a variable: nils, loops and what no format has, too.
func filled(r *rand.Rand, v reflect.Value, depth int) {
	if !v.CanSet() || r.Intn(10) == 0 {
		return
	}
	switch v.Kind() {
	case reflect.Interface:
		values := hardValues()
		if value := reflect.ValueOf(values[r.Intn(len(values))]); value.IsValid() && value.Type().Implements(v.Type()) {
			v.Set(value)
		}
	case reflect.Pointer:
		if depth > 0 {
			v.Set(reflect.New(v.Type().Elem()))
			filled(r, v.Elem(), depth-1)
		}
	case reflect.Slice:
		v.Set(reflect.MakeSlice(v.Type(), r.Intn(3), 3))
		fallthrough
	case reflect.Array:
		for i := 0; i < v.Len() && i < 4 && depth > 0; i++ {
			filled(r, v.Index(i), depth-1)
		}
	case reflect.Struct:
		for i := 0; i < v.NumField(); i++ {
			filled(r, v.Field(i), depth)
		}
	case reflect.Map:
		v.Set(reflect.MakeMap(v.Type()))
	case reflect.String:
		v.SetString([]string{"", "0aff", "0x1", "\xff"}[r.Intn(4)])
	case reflect.Bool:
		v.SetBool(true)
	default:
		if v.CanInt() {
			v.SetInt(int64(r.Intn(300)))
		} else if v.CanUint() {
			v.SetUint(uint64(r.Intn(300)))
		}
	}
}

// Types that nearly fit a format are values, or rejected. ROUNDS=200 tries 50,000 of them.
func TestTypesThatNearlyFit(t *testing.T) {
	done, rounds, r := 0, roundsOfTest(t), rand.New(rand.NewSource(1))
	forRandomValues(t, r, func(v randomValue) error {
		limited := v.registry.WithLimits(Limits{500, 10_000})
		for k := 0; k < 2; k++ {
			variable := reflect.New(changedType(r, v.goType))
			filled(r, variable.Elem(), 4)
			done += bothWays(t, limited, v.format, variable.Elem().Interface(), [][]byte{v.data})
		}
		return nil
	})
	if done < 50*rounds {
		t.Errorf("only %d calls succeeded", done)
	}
}

// A type that contains itself may follow a chain of containers of any length, as `any` does. A stack of that length would end the
// program.
func TestChainsOfContainers(t *testing.T) {
	defer debug.SetMaxStack(debug.SetMaxStack(4 << 20))
	text, options := `{"C0":"UNITSTRUCT"`, strings.Repeat(`{"OPTION":`, 30)
	for i := 1; i <= 1000; i++ {
		text += fmt.Sprintf(`,"C%d":{"NEWTYPESTRUCT":%s{"TYPENAME":"C%d"}%s}`, i, options, i-1, strings.Repeat("}", 30))
	}
	registry := open(t, text+"}")
	var nested pointer
	if value, err := registry.Decode("C1000", []byte{1, 0}); err != nil || value != (Some{nil}) {
		t.Error(value, err)
	}
	if err := registry.Unmarshal("C1000", []byte{1, 0}, &nested); err == nil || !strings.HasPrefix(err.(*Error).At, "/some/some/some/") {
		t.Errorf("%.200v", err)
	}
	if _, err := registry.Encode("C1000", ptr(nested)); err == nil || !strings.HasPrefix(err.(*Error).At, "/some/some/some/") {
		t.Errorf("%.200v", err)
	}
}
