package bcsproved

import (
	"bytes"
	"encoding/hex"
	"encoding/json"
	"errors"
	"fmt"
	"math/big"
	"reflect"
	"strings"
	"testing"
	"time"
)

const valueShapes = `{"P":{"STRUCT":[{"to":"STR"},{"amount":"U64"}]},"N":{"NEWTYPESTRUCT":"U8"},"S":"UNITSTRUCT",
"E":{"ENUM":{"0":{"Dot":"UNIT"},"1":{"Num":{"NEWTYPE":"U64"}},"2":{"Pair":{"TUPLE":["U8","U8"]}},"3":{"Named":{"STRUCT":[{"r":"U8"}]}}}},
"address":{"NEWTYPESTRUCT":{"TUPLEARRAY":{"CONTENT":"U8","SIZE":32}}},"u256":{"NEWTYPESTRUCT":{"TUPLEARRAY":{"CONTENT":"U8","SIZE":32}}},
"i256":{"NEWTYPESTRUCT":{"TUPLEARRAY":{"CONTENT":"U8","SIZE":32}}},
"L":{"STRUCT":[{"head":"U8"},{"next":{"OPTION":{"TYPENAME":"L"}}}]},"C":{"NEWTYPESTRUCT":{"TYPENAME":"C"}},
"Tree":{"ENUM":{"0":{"Leaf":"UNIT"},"1":{"Fork":{"TUPLE":[{"TYPENAME":"Tree"},{"TYPENAME":"Tree"}]}},"2":{"Odd":{"NEWTYPE":"F32"}}}}}`

// formatsOfTable are formats by short names.
var formatsOfTable = map[string]string{"seqU8": `{"SEQ":"U8"}`, "arr4U8": `{"TUPLEARRAY":{"CONTENT":"U8","SIZE":4}}`, "seqU16": `{"SEQ":"U16"}`,
	"arr2U16": `{"TUPLEARRAY":{"CONTENT":"U16","SIZE":2}}`, "optU8": `{"OPTION":"U8"}`, "optopt": `{"OPTION":{"OPTION":"BOOL"}}`,
	"map": `{"MAP":{"KEY":"STR","VALUE":"U8"}}`, "tup": `{"TUPLE":["U8","STR"]}`, "tup0": `{"TUPLE":[]}`, "seqN": `{"SEQ":{"TYPENAME":"N"}}`,
	"P": "P", "N": "N", "S": "S", "E": "E", "address": "address", "u256": "u256", "i256": "i256", "U8": `"U8"`, "U16": `"U16"`, "U32": `"U32"`,
	"U64": `"U64"`, "U128": `"U128"`, "I8": `"I8"`, "I16": `"I16"`, "I32": `"I32"`, "I64": `"I64"`, "I128": `"I128"`, "BOOL": `"BOOL"`,
	"UNIT": `"UNIT"`, "STR": `"STR"`, "BYTES": `"BYTES"`}

type (
	pay struct {
		To     string
		Amount uint64
	}
	hidden struct {
		To     string
		amount uint64
	}
	fewer struct{ To string }
	more  struct {
		To     string
		Amount uint64
		Memo   string
	}
	tuple struct {
		A uint8  `bcs:"0"`
		B string `bcs:"1"`
	}
	Amount uint64
	named  struct {
		To string
		Amount
	}
	myByte byte
	myStr  string
	level  int
)

// MarshalText makes `level` a type that isn't just an integer.
func (l level) MarshalText() ([]byte, error) { return []byte{byte('a' + l)}, nil }

func ptr[T any](v T) *T { return &v }

// A sample of each type. tests/rows/values/go.rows has each type at every format.
func TestValues(t *testing.T) {
	c := open(t, `{"Pay":{"STRUCT":[{"to":"STR"},{"amount":"U64"},{"memo":{"OPTION":"BYTES"}}]}}`)
	type paid struct {
		To     string
		Amount uint64
		Memo   *Hex
	}
	memo, data := Hex("07"), unhex(t, "03626f620700000000000000010107")
	for _, value := range []any{paid{"bob", 7, &memo}, &paid{"bob", 7, &memo}, map[string]any{"to": "bob", "amount": big.NewInt(7), "memo": Some{[]byte{7}}}} {
		if encoded, err := c.Encode("Pay", value); err != nil || !bytes.Equal(encoded, data) {
			t.Errorf("%v: %x %v", value, encoded, err)
		}
	}
	var back paid
	if err := c.Unmarshal("Pay", data, &back); err != nil || !reflect.DeepEqual(back, paid{"bob", 7, &memo}) {
		t.Error(back, err)
	}
	_, err := c.Encode("Pay", map[string]any{"to": "bob", "amount": 7.5, "memo": nil})
	if want := (Error{KindValue, "WrongType", -1, "/amount", "U64 takes an integer, not float64"}); err == nil || *err.(*Error) != want {
		t.Error(err)
	}
}

// Formats may come from strangers, so a registry doesn't remember them all, nor what was made for them.
func TestRememberedFormats(t *testing.T) {
	const formats, most = 2500, 1000
	registry := open(t, "{}")
	for i := 0; i < formats; i++ {
		format := fmt.Sprintf(`{"OPTION":{"TUPLEARRAY":{"CONTENT":"BOOL","SIZE":%d}}}`, i+1)
		if data, err := registry.Encode(format, (*[]bool)(nil)); err != nil || !bytes.Equal(data, []byte{0}) {
			t.Fatal(data, err)
		}
		if err := registry.Unmarshal(format, []byte{0}, new(*[]bool)); err != nil {
			t.Fatal(err)
		}
	}
	codec := registry.shared.codec
	if count := len(codec.roots); count == 0 || count > most {
		t.Error(count, "formats")
	}
	// (each format has a converter, and so has what its option holds)
	for _, count := range []int{len(codec.encoders.made), len(codec.decoders.made)} {
		if count == 0 || count > 3*most {
			t.Error(count, "converters")
		}
	}
}

// What json.Marshal turns into other bytes without any error, and what happens here.
func TestJSONMarshal(t *testing.T) {
	c := open(t, valueShapes)
	for _, row := range []struct {
		format    string
		value     any
		json, now string
	}{
		{`"BYTES"`, []byte{0x69, 0xb7, 0x1d}, "02abcd", "0369b71d"},
		{`{"SEQ":"U8"}`, []byte{0x69, 0xb7, 0x1d}, "02abcd", "0369b71d"},
		{`"STR"`, []byte{0x69, 0xb7, 0x1d}, "0461626364", "refused: WrongType: STR takes a string, not []uint8"},
		{`"STR"`, "\xff", "03efbfbd", "refused: WrongType: STR takes UTF-8, not this string"},
		{`"U64"`, float64(9007199254740993), "0000000000002000", "refused: WrongType: U64 takes an integer, not float64"},
		{`{"OPTION":{"SEQ":"U8"}}`, []byte(nil), "00", `refused: WrongType: {"OPTION":{"SEQ":"U8"}} takes a pointer, nil or Some, not []uint8`},
	} {
		text, _ := json.Marshal(row.value)
		data, err := c.EncodeJSON(row.format, text)
		if hex.EncodeToString(data) != row.json {
			t.Errorf("json.Marshal at %s: %x %v", row.format, data, err)
		}
		data, err = c.Encode(row.format, row.value)
		got := hex.EncodeToString(data)
		if err != nil {
			got = err.Error()
		}
		if got != row.now {
			t.Errorf("%s: %s, not %s", row.format, got, row.now)
		}
	}
}

func TestErrors(t *testing.T) {
	c := open(t, valueShapes)
	type list struct {
		Head uint8
		Next *list
	}
	cycle := &list{}
	cycle.Next = cycle
	var endless any
	endless = &endless
	type self *self
	var me self
	me = &me
	for _, row := range []struct {
		format string
		value  any
		want   string
	}{
		{"P", map[string]any{"to": "b", "amount": []byte{7}}, "refused: WrongType at /amount: U64 takes an integer, not []uint8"},
		{`{"SEQ":"P"}`, nil, "BadShape"},
		{`{"SEQ":{"TYPENAME":"P"}}`, []pay{{"a", 1}, {"\xff", 1}}, "refused: WrongType at /1/to: STR takes UTF-8, not this string"},
		{`{"SEQ":{"TYPENAME":"P"}}`, []struct {
			To     string
			Amount float64
		}{}, "refused: WrongType at /-/amount: U64 takes an integer, not float64"},
		{"E", Variant{"Pair", []any{1, 256}}, "refused: WrongType at /Pair/1: U8 doesn't hold 256"},
		{"L", cycle, "is there a cycle of pointers"},
		{"L", me, "takes a struct or a map[string]T, not bcsproved.self"},
		{"C", 7, "refused: WrongType: C has no values"},
		{"C", nil, "refused: WrongType: C has no values"},
		{"C", Some{1}, "refused: WrongType: C has no values"},
		{`"BYTES"`, []any{1, endless}, "refused: WrongType at /1: U8 takes an integer, not interface {}"},
		{`"F32"`, 7, "F32 has no values, not int"},
		{`{"SEQ":"U8"}`, []fmt.Stringer{}, "at /-: U8 takes an integer, not fmt.Stringer"},
		{"P", map[string]any{"to": "b", "amount": (*uint64)(nil)}, "refused: WrongType at /amount: U64 takes no nil of type *uint64 inside an interface"},
		{"P", map[string]any{"to": "b", "amount": 1, "a/b": 1}, `refused: WrongType: P has no field "a/b"`},
	} {
		if _, err := c.Encode(row.format, row.value); err == nil || !strings.Contains(err.Error(), row.want) {
			t.Errorf("%s: %v, not %s", row.format, err, row.want)
		}
	}
	var small struct {
		To     string
		Amount uint32
	}
	small.To = "kept"
	err := c.Unmarshal("P", []byte("\x03bob\x07\x00\x00\x00\x00\x00\x00\x00"), &small)
	if err == nil || err.Error() != "refused: WrongType at /amount: U64 doesn't fit in uint32" || small.To != "kept" {
		t.Error(err, small)
	}
	v, err := c.Decode("Tree", []byte{1, 0, 0})
	if want := (Variant{"Fork", []any{Variant{"Leaf", nil}, Variant{"Leaf", nil}}}); err != nil || !reflect.DeepEqual(v, want) {
		t.Error(v, err)
	}
}

// Variables that Unmarshal takes or refuses, before it has seen a value or when it sees one that doesn't fit.
func TestUnmarshal(t *testing.T) {
	c := open(t, `{"O":{"STRUCT":[{"\b":"U8"},{"k":"BYTES"}]}}`)
	type o struct {
		A uint8   `bcs:"\b"`
		K [3]byte `bcs:"k"`
	}
	bad := &o{9, [3]byte{9}}
	for _, row := range []struct {
		format, data string
		pointer      any
		want         string
	}{
		{`"U32"`, "01000000", new(int32), "U32 doesn't fit in int32"}, {`"U64"`, "0100000000000000", new(float64), "U64 takes an integer, not float64"},
		{`"BYTES"`, "020102", new([3]byte), "BYTES has 2 bytes here, not those of [3]uint8"}, {`{"SEQ":"U16"}`, "0201000200", new([3]uint16), "fewer"},
		{`"BYTES"`, "020102", new(string), "BYTES takes bytes, or Hex(…) for digits, not string"}, {`{"OPTION":"U8"}`, "00", new(uint8), "takes a pointer"},
		{`{"SEQ":"U8"}`, "020102", new([]any), "takes bytes, or Hex(…) for digits, not []interface {}"}, {`{"SEQ":"U16"}`, "0201000200", new([1]uint16), "/1: "},
		{`{"MAP":{"KEY":"U8","VALUE":"U8"}}`, "0101020304", new(map[uint8]uint8), "refused: TrailingBytes at byte 3, .: expected the end, found 2 bytes more"},
		{`{"MAP":{"KEY":"U8","VALUE":"U8"}}`, "010102", new(map[any]uint8), "in the keys of a map"},
		{"O", "0103010203", new(o), "{1 [1 2 3]}"}, {"O", "01020102", bad, "/k: BYTES has 2 bytes"}, {"O", "0103010203", new(map[string]any), "map[\b:1 k:[1 2 3]]"},
	} {
		data, _ := hex.DecodeString(row.data)
		err := c.Unmarshal(row.format, data, row.pointer)
		got := ""
		if err != nil {
			got = err.Error()
		} else {
			got = fmt.Sprint(reflect.ValueOf(row.pointer).Elem().Interface())
		}
		if err == nil && got != row.want || !strings.Contains(got, row.want) {
			t.Errorf("%s %s into %T: %q, not %q", row.format, row.data, row.pointer, got, row.want)
		}
	}
	if *bad != (o{9, [3]byte{9}}) {
		t.Error(bad)
	}
	type kept struct {
		O      o
		Key    string         `bcs:"-"`
		hidden map[string]int `bcs:"-"`
	}
	named := open(t, `{"K":{"STRUCT":[{"o":{"TYPENAME":"O"}}]},"O":{"STRUCT":[{"\b":"U8"},{"k":"BYTES"}]}}`)
	variable := kept{o{1, [3]byte{2}}, "key", map[string]int{"a": 1}}
	if err := named.Unmarshal("K", []byte{7, 3, 4, 5, 6}, &variable); err != nil || fmt.Sprint(variable) != "{{7 [4 5 6]} key map[a:1]}" {
		t.Error(err, variable)
	}
}

// The entries of a Go map have no order, so an error names the key.
func TestErrorsInMaps(t *testing.T) {
	c := open(t, "{}")
	for _, row := range []struct {
		key   string
		value any
		want  string
	}{
		{"STR", map[string]int{"bad": 256}, `at /0/1: U8 doesn't hold 256 (at the key "bad")`},
		{"STR", map[any]any{"\n" + strings.Repeat("é", 1000): "x"}, `U8 takes an integer, not string (at the key "\n` + strings.Repeat("é", 99) + `")`},
		{"I8", map[int8]int{-7: 256}, "at /0/1: U8 doesn't hold 256 (at the key -7)"},
		{"U16", map[uint]int{65536: 1}, "at /0/0: U16 doesn't hold 65536 (at the key 65536)"},
		{"BOOL", map[bool]int{true: 256}, "at /0/1: U8 doesn't hold 256"},
		{"STR", []Entry{{"bad", 256}}, "at /0/1: U8 doesn't hold 256"},
	} {
		_, err := c.Encode(fmt.Sprintf(`{"MAP":{"KEY":%q,"VALUE":"U8"}}`, row.key), row.value)
		if err == nil || !strings.HasSuffix(err.Error(), row.want) {
			t.Errorf("%v, not %s", err, row.want)
		}
	}
}

// Keys of Go maps are compared by what they contain, so there are no pointers in them; and what is decoded may be no key.
func TestKeysOfMaps(t *testing.T) {
	c := open(t, valueShapes)
	type of[T any] struct {
		A T `bcs:"0"`
	}
	pairs, tuples := `{"MAP":{"KEY":{"TUPLEARRAY":{"CONTENT":"U16","SIZE":2}},"VALUE":"U8"}}`, `{"MAP":{"KEY":{"TUPLE":["U8"]},"VALUE":"U8"}}`
	pointers, interfaces := "takes no pointers in the keys of a map", "takes no interfaces in the keys of a map when decoded"
	for _, row := range []struct {
		format           string
		value            any
		encoded, decoded string // the bytes, or the error
	}{
		{pairs, map[[2]uint16]uint8{{1, 2}: 3}, "010100020003", "010100020003"},
		{pairs, map[[2]any]uint8{{1, 2}: 3}, "010100020003", interfaces},
		{pairs, map[any]uint8{[2]int{1, 2}: 3}, "010100020003", interfaces},
		{pairs, map[[2]*uint16]uint8{}, pointers, pointers},
		{pairs, map[*[2]uint16]uint8{}, pointers, pointers},
		{pairs, map[any]uint8{&[2]int{1, 2}: 3}, "at /0/0: " + `{"TUPLEARRAY":{"CONTENT":"U16","SIZE":2}} ` + pointers, interfaces},
		{pairs, map[[2]any]uint8{{1, ptr(2)}: 3}, "at /0/0/1: U16 " + pointers, interfaces},
		{pairs, map[any]uint8{[2]*int{nil, nil}: 3}, "at /0/0: " + `{"TUPLEARRAY":{"CONTENT":"U16","SIZE":2}} ` + pointers, interfaces},
		{tuples, map[any]uint8{of[*uint8]{}: 2}, `at /0/0: {"TUPLE":["U8"]} ` + pointers, interfaces},
		{pairs, []Entry{{&[2]int{1, 2}, 3}}, "010100020003", "010100020003"},
		{tuples, map[of[uint8]]uint8{{1}: 2}, "010102", "010102"},
		{tuples, map[[1]of[int]]uint8{}, "at /-/0/0: U8 takes an integer, not bcsproved.of[int]", "at /-/0/0: U8 takes an integer"},
		{tuples, map[of[any]]uint8{{1}: 2}, "010102", interfaces},
		{tuples, map[[1]of[any]]uint8{}, "at /-/0/0: U8 takes an integer", interfaces},
		{tuples, map[of[of[any]]]uint8{}, "at /-/0/0: U8 takes an integer", interfaces},
		{tuples, map[of[*uint8]]uint8{}, pointers, pointers},
		{tuples, map[of[[3]of[*uint8]]]uint8{}, pointers, pointers},
		{`{"MAP":{"KEY":{"TYPENAME":"E"},"VALUE":"U8"}}`, map[Variant]uint8{{"Dot", nil}: 1}, "010001", interfaces},
		{`{"MAP":{"KEY":{"OPTION":"U8"},"VALUE":"U8"}}`, map[Some]uint8{{1}: 2}, "01010102", interfaces},
		{`{"MAP":{"KEY":{"OPTION":"U8"},"VALUE":"U8"}}`, map[Some]uint8{{ptr(1)}: 2}, "at /0/0/some: U8 " + pointers, interfaces},
	} {
		data, err := c.Encode(row.format, row.value)
		if got := fmt.Sprintf("%x %v", data, err); !strings.Contains(got, row.encoded) || (err == nil) != (row.encoded == hex.EncodeToString(data)) {
			t.Errorf("%T at %s: %s, not %s", row.value, row.format, got, row.encoded)
		}
		variable := reflect.New(reflect.TypeOf(row.value))
		err = c.Unmarshal(row.format, data, variable.Interface())
		got := fmt.Sprint(err)
		if err == nil {
			again, _ := c.Encode(row.format, variable.Elem().Interface())
			got = hex.EncodeToString(again)
		}
		if !strings.Contains(got, row.decoded) {
			t.Errorf("%s into %T: %s, not %s", row.format, row.value, got, row.decoded)
		}
	}
}

// Names in errors are cut, as the program cuts them.
func TestLongNames(t *testing.T) {
	long := strings.Repeat("é", 1<<20)
	cut := strings.Repeat("é", 100) + "...(cut)"
	registry := open(t, `{"S":{"STRUCT":[{"a":"U8"}]},"E":{"ENUM":{"0":{"A":"UNIT"}}},"`+long+`":{"STRUCT":[{"`+long+`":"U8"}]}}`)
	for _, row := range []struct {
		format string
		value  any
		want   string
	}{
		{"S", map[string]any{"a": 1, long: 1}, fmt.Sprintf("S has no field %q", cut)},
		{"E", Variant{long, nil}, fmt.Sprintf("E has no variant %q", cut)},
		{long, map[string]any{}, fmt.Sprintf("%s needs the field %q", cut, cut)},
		{long, struct{}{}, fmt.Sprintf("%s needs a field for %q in struct {}", cut, cut)},
		{long, 1, cut + " takes a struct or a map[string]T, not int"},
		{"a" + long, 1, ""},
		{`{"TUPLE":["U8"` + strings.Repeat(`,"U8"`, 1000) + `]}`, 1, `{"TUPLE":["U8"` + strings.Repeat(`,"U8"`, 37) + `,...(cut) takes a slice`},
	} {
		_, err := registry.Encode(row.format, row.value)
		if message := fmt.Sprint(err); !strings.Contains(message, row.want) || len(message) > 1500 {
			t.Errorf("%.300v, not %s", message, row.want)
		}
	}
}

// Names that the registry doesn't have are rejected, except the default ones.
func TestNamesOfContainers(t *testing.T) {
	bytes32 := `{"NEWTYPESTRUCT":{"TUPLEARRAY":{"CONTENT":"U8","SIZE":32}}}`
	text := []byte(`{"A":{"NEWTYPESTRUCT":"BYTES"},"AccountAddress":` + bytes32 + `,"U256":` + bytes32 + `,"Int":` + bytes32 + `,"address":` + bytes32 + `}`)
	for _, name := range []string{"A", "B", "u256", "i256", "\n" + strings.Repeat("B", 1000)} {
		for _, names := range []Names{{Addresses: []string{name}}, {U256: []string{"U256", name}}, {I256: []string{name}}} {
			registry, err := Open(text, names)
			want := fmt.Sprintf("refused: UnknownName: Names: no newtype of 32 bytes is called %.200q", name)
			if isStandard := name == "u256" || name == "i256"; isStandard != (err == nil) || err != nil && !strings.HasPrefix(err.Error(), want[:len(want)-1]) {
				t.Errorf("%v %v", registry, err)
			}
		}
	}
	for _, names := range []Names{{U256: []string{"address"}}, {U256: []string{"U256", "U256"}}, {U256: []string{"Int"}, I256: []string{"Int"}}} {
		if _, err := Open(text, names); err == nil || !strings.Contains(err.Error(), "Names: two forms are given for") {
			t.Errorf("%v: %v", names, err)
		}
	}
	several := []Names{{Addresses: []string{"AccountAddress"}}, {U256: []string{"U256"}}}
	if _, err := Open(text, several...); err == nil || err.Error() != "refused: UnknownName: Names: Open takes at most one" {
		t.Error(err)
	}
	if _, err := Open(text, several[:1]...); err != nil || len(several[1].U256) != 1 {
		t.Errorf("%v, and the caller's Names are %v", err, several)
	}
	registry, err := Open(text, Names{[]string{"AccountAddress"}, []string{"U256"}, []string{"Int"}})
	if err != nil {
		t.Fatal(err)
	}
	for _, row := range []struct {
		format, data string
		value        any
	}{
		{"AccountAddress", strings.Repeat("00", 31) + "0a", "0x" + strings.Repeat("0", 63) + "a"},
		{"U256", "ff" + strings.Repeat("00", 31), big.NewInt(255)},
		{"Int", "fe" + strings.Repeat("ff", 31), big.NewInt(-2)},
		{"address", "fe" + strings.Repeat("ff", 31), append([]byte{254}, bytes.Repeat([]byte{255}, 31)...)}, // since Names has others
	} {
		data, err := registry.Encode(row.format, row.value)
		back, err2 := registry.Decode(row.format, unhex(t, row.data))
		if hex.EncodeToString(data) != row.data || !reflect.DeepEqual(back, row.value) || err != nil || err2 != nil {
			t.Errorf("%s: %x %v %v %v", row.format, data, back, err, err2)
		}
	}
}

// A string is never bytes, whatever it looks like.
func TestStringsAreNoBytes(t *testing.T) {
	registry := open(t, `{"M":{"STRUCT":[{"memo":{"SEQ":"U8"}}]},"B":{"STRUCT":[{"memo":"BYTES"}]},"A":{"STRUCT":[{"memo":{"TUPLEARRAY":{"CONTENT":"U8","SIZE":2}}}]}}`)
	type memo struct{ Memo any }
	for format, text := range map[string]string{"M": `{"SEQ":"U8"}`, "B": "BYTES", "A": `{"TUPLEARRAY":{"CONTENT":"U8","SIZE":2}}`} {
		for _, digits := range []string{"cafe", "hello", "1234", "AbCd", "", "0x1"} {
			want := Error{KindValue, "WrongType", -1, "/memo", text + " takes bytes, or Hex(…) for digits, not string"}
			for _, value := range []any{map[string]any{"memo": digits}, map[string]string{"memo": digits}, memo{digits}, struct{ Memo string }{digits}} {
				if data, err := registry.Encode(format, value); err == nil || *err.(*Error) != want {
					t.Errorf("%#v: %x %v", value, data, err)
				}
			}
			if err := registry.CheckType(format, struct{ Memo string }{}); err == nil || *err.(*Error) != want {
				t.Error(err)
			}
		}
		data, err := registry.Encode(format, memo{Hex("cafe")})
		if err != nil || !bytes.HasSuffix(data, []byte{0xca, 0xfe}) {
			t.Errorf("%x %v", data, err)
		}
	}
}

// What Decode returns has the same bytes again, at each format.
func TestThereAndBack(t *testing.T) {
	for name, formats := range map[string][]string{"every_format": nil, "aptos_registry": nil, "sui_registry": nil, "": nil} {
		text, count := valueShapes, 0
		if name != "" {
			text = string(example(t, name+".json"))
		}
		var containers map[string]any
		if err := json.Unmarshal([]byte(text), &containers); err != nil {
			t.Fatal(err)
		}
		for container := range containers {
			formats = append(formats, container)
		}
		for _, format := range formatsOfTable {
			if name == "" {
				formats = append(formats, format)
			}
		}
		registry := open(t, text)
		for _, format := range formats {
			for _, data := range samples(registry, format) {
				value, err := registry.Decode(format, data)
				again, err2 := registry.Encode(format, value)
				if err != nil || err2 != nil || !bytes.Equal(again, data) {
					t.Errorf("%s: %x became %v, and that %x: %v, %v", format, data, value, again, err, err2)
				}
				count++
			}
		}
		if count < len(containers) {
			t.Errorf("%s: only %d values", name, count)
		}
	}
}

// What would cost much or never end is rejected.
func TestValuesWithoutEnd(t *testing.T) {
	registry := open(t, valueShapes)
	list := []any{nil}
	list[0] = list
	table := map[string]any{"head": 1}
	table["next"] = &table
	type tree struct {
		Leaf *struct{}
		Fork *struct {
			A *tree `bcs:"0"`
			B *tree `bcs:"1"`
		}
	}
	shared := &tree{Leaf: &struct{}{}}
	for i := 0; i < 45; i++ {
		shared = &tree{Fork: &struct {
			A *tree `bcs:"0"`
			B *tree `bcs:"1"`
		}{shared, shared}}
	}
	deep := strings.Repeat(`{"SEQ":`, 30) + `"U8"` + strings.Repeat("}", 30)
	limited := registry.WithLimits(Limits{500, 100_000})
	for name, call := range map[string]func() error{
		"a list of itself":  func() error { _, err := registry.Encode(deep, list); return err },
		"a map of itself":   func() error { _, err := registry.Encode("L", table); return err },
		"shared pointers":   func() error { _, err := limited.Encode("Tree", shared); return err },
		"2^40 units":        func() error { _, err := limited.Encode(`{"SEQ":"UNIT"}`, make([]struct{}, 1<<40)); return err },
		"a variant of both": func() error { _, err := registry.Encode("Tree", Variant{"Fork", list}); return err },
		"a long number":     func() error { _, err := registry.Encode(`"U64"`, new(big.Int).Lsh(big.NewInt(1), 1<<20)); return err },
	} {
		start := time.Now()
		err := call()
		var refused *Error
		if !errors.As(err, &refused) || refused.Kind != KindValue || len(err.Error()) > 20_000 || time.Since(start) > time.Minute {
			t.Errorf("%s: %v after %s: %.300v", name, refused != nil, time.Since(start), err)
		}
	}
}
