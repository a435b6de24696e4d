package main

import (
	"encoding/json"
	"errors"
	"fmt"
	"math/big"
	"net/netip"
	"reflect"
	"strings"
	"time"

	bcs "fodrascu.example/bcsproved"
)

type (
	pay struct {
		To     string
		Amount uint64
	}
	tagged struct {
		Whom string `bcs:"to"`
		N    int32  `bcs:"amount"`
	}
	swapped struct {
		To     uint64 `bcs:"amount"`
		Amount string `bcs:"to"`
	}
	hidden struct {
		To     string
		amount uint64
	}
	embeds struct{ pay }
	fewer  struct{ To string }
	more   struct {
		To     string
		Amount uint64
		Memo   string
	}
	tuple struct {
		A uint8  `bcs:"0"`
		B string `bcs:"1"`
	}
	untagged struct {
		A uint8
		B string
	}
	either struct {
		Dot *struct{}
		Num *uint64
	}
	Amount uint64
	named  struct {
		To string
		Amount
	}
	myByte byte
	myStr  string
	level  int
	entry  struct {
		Key   string
		Value uint8
	}
	longer struct {
		Key         string
		Value, More uint8
	}
)

// MarshalText makes `level` a type that isn't just an integer.
func (l level) MarshalText() ([]byte, error) { return []byte{byte('a' + l)}, nil }

func ptr[T any](v T) *T { return &v }

func power(bits uint) *big.Int { return new(big.Int).Lsh(big.NewInt(1), bits) }

var (
	ones    = strings.Repeat("11", 32)
	cycle   = []any{nil}
	endless any
	units   = struct{}{}
)

func init() {
	cycle[0], endless = cycle, &endless
}

// values has the values of the table, by what they are called there. Where an entry of a Go map is rejected, all are, since they have no
// order.
var values = map[string]any{
	"0": 0, "7": 7, "-1": -1, "int8(-128)": int8(-128), "255": 255, "256": 256, "uint8(200)": uint8(200), "uint16(65535)": uint16(65535),
	"int32(-70000)": int32(-70000), "uint64(1<<64 - 1)": uint64(1<<64 - 1), "int64(-1 << 63)": int64(-1 << 63), "'a'": 'a',
	"big.NewInt(5)": big.NewInt(5), "*big.NewInt(6)": *big.NewInt(6), "big.NewInt(-1)": big.NewInt(-1), "power(127)": power(127),
	"power(256)": power(256), "-power(255)": new(big.Int).Neg(power(255)), "power(1 << 20)": power(1 << 20), "(*big.Int)(nil)": (*big.Int)(nil),
	"7.0": 7.0, "float32(1)": float32(1), "json.Number(7)": json.Number("7"), "uintptr(7)": uintptr(7), "complex(1, 0)": complex(1, 0),
	"true": true, "false": false, "nil": nil, "struct{}{}": units, "&struct{}{}": &units,
	`""`: "", `"bob"`: "bob", `"7"`: "7", `"\xff"`: "\xff", `"\"\\\n\x00é"`: "\"\\\n\x00é", `myStr("x")`: myStr("x"),
	`"0x" + ones`: "0x" + ones, `"0x1"`: "0x1", `"0x"`: "0x", `"0x" + ones + "1"`: "0x" + ones + "1", `"000000"`: "000000", `"cafe"`: "cafe",
	"ones": ones, `"0xg"`: "0xg",
	`Hex("0aFF")`: bcs.Hex("0aFF"), `Hex("0a0")`: bcs.Hex("0a0"), `Hex("01020304")`: bcs.Hex("01020304"), "Hex(ones)": bcs.Hex(ones),
	"[]byte{}": []byte{}, "[]byte(nil)": []byte(nil), "[]byte{1, 2, 3, 4}": []byte{1, 2, 3, 4}, "[4]byte{1, 2, 3, 4}": [4]byte{1, 2, 3, 4},
	"[]byte{255, 0}": []byte{255, 0}, "[]myByte{5}": []myByte{5}, "[]int{1, 300}": []int{1, 300}, "[]int{1, 30}": []int{1, 30},
	"[]int{1, -1}": []int{1, -1}, "[]int64{1 << 40}": []int64{1 << 40}, "[]float64{}": []float64{}, "[]fmt.Stringer{}": []fmt.Stringer{},
	`[]any{1, "x", 2}`: []any{1, "x", 2}, `[3]any{1, "x", 2}`: [3]any{1, "x", 2}, `[]any{1, "x"}`: []any{1, "x"}, "[]any{1, uint16(2)}": []any{1, uint16(2)},
	"[]any{1, true}": []any{1, true}, "[]any{nil}": []any{nil}, "[]any{1, endless}": []any{1, endless}, "cycle": cycle,
	"[][]byte{{1}, {2, 3}}": [][]byte{{1}, {2, 3}}, `[]string{"x"}`: []string{"x"}, `[]longer{{"a", 1, 2}}`: []longer{{"a", 1, 2}},
	"json.RawMessage(7)": json.RawMessage("7"), "ptr(uint8(3))": ptr(uint8(3)), "(*uint8)(nil)": (*uint8)(nil), "Some{4}": bcs.Some{Value: 4},
	"Some{nil}": bcs.Some{}, "ptr(ptr(true))": ptr(ptr(true)), "ptr((*bool)(nil))": ptr((*bool)(nil)), "ptr(struct{}{})": ptr(units),
	`map[string]uint8{"b": 2, "a": 1}`: map[string]uint8{"b": 2, "a": 1}, "map[uint8]int{7: 256}": map[uint8]int{7: 256},
	"map[uint8]bool{7: true}": map[uint8]bool{7: true}, "map[string]float64{}": map[string]float64{}, "map[*string]uint8{}": map[*string]uint8{},
	`map[any]uint8{ptr("a"): 1}`: map[any]uint8{ptr("a"): 1}, `map[Hex]any{"to": 1}`: map[bcs.Hex]any{"to": 1},
	`map[string]any{"to": "bob", "amount": 7000}`: map[string]any{"to": "bob", "amount": 7000}, `map[string]any{"to": "bob"}`: map[string]any{"to": "bob"},
	`map[string]any{"to": "b", "amount": 7000, "a/b": 7000}`: map[string]any{"to": "b", "amount": 7000, "a/b": 7000},
	`map[string]any{"to": "b", "amount": (*uint64)(nil)}`:    map[string]any{"to": "b", "amount": (*uint64)(nil)},
	`[]entry{{"b", 2}, {"a", 1}}`:                            []entry{{"b", 2}, {"a", 1}}, `[]Entry{{"a", 1}, {"a", 2}}`: []bcs.Entry{{Key: "a", Value: 1}, {Key: "a", Value: 2}},
	`[]Entry{{"bad", 256}}`: []bcs.Entry{{Key: "bad", Value: 256}},
	`pay{"bob", 7}`:         pay{"bob", 7}, `&tagged{"bob", 7}`: &tagged{"bob", 7}, `tagged{"bob", -1}`: tagged{"bob", -1}, `swapped{7, "bob"}`: swapped{7, "bob"},
	`hidden{"bob", 7}`: hidden{"bob", 7}, "embeds{}": embeds{}, "fewer{}": fewer{}, "more{}": more{}, `named{"b", 7}`: named{"b", 7},
	`[]pay{{"a", 1}, {"\xff", 1}}`: []pay{{"a", 1}, {"\xff", 1}}, `tuple{1, "x"}`: tuple{1, "x"}, `untagged{1, "x"}`: untagged{1, "x"},
	`Variant{"Dot", nil}`: variant("Dot", nil), `Variant{"Num", 7}`: variant("Num", 7), `Variant{"Pair", []byte{1, 2}}`: variant("Pair", []byte{1, 2}),
	`Variant{"Pair", []byte{1, 2, 3}}`: variant("Pair", []byte{1, 2, 3}), `Variant{"Pair", []any{1, 256}}`: variant("Pair", []any{1, 256}),
	`Variant{"Named", {"r": 9}}`: variant("Named", map[string]any{"r": 9}), `Variant{"Nope", nil}`: variant("Nope", nil),
	`Variant{"Num", nil}`: variant("Num", nil), `Variant{"Dot", 1}`: variant("Dot", 1), "either{Num: 7}": either{Num: ptr(uint64(7))}, "either{}": either{},
	"either{{}, 7}": either{&units, ptr(uint64(7))},
	"netip.Addr":    netip.MustParseAddr("1.2.3.4"), "level(1)": level(1), "time.Time": time.Unix(0, 0), "an error": errors.New("x"), "a func": func() {},
	"a chan": make(chan int),
}

func variant(name string, value any) bcs.Variant { return bcs.Variant{Name: name, Value: value} }

// types has the types that bytes are decoded as, by what the table calls them.
var types = typesOf(uint8(0), uint16(0), uint32(0), uint64(0), uint(0), int8(0), int16(0), int32(0), int64(0), 0, big.Int{}, &big.Int{}, 0.0, true, "",
	units, []byte{}, [1]byte{}, [2]byte{}, [3]byte{}, [32]byte{}, []myByte{}, bcs.Hex(""), []any{}, []int{}, [1]uint16{}, [2]uint16{}, [3]uint16{}, []uint64{},
	[]string{}, [][]byte{}, ptr(uint8(0)), ptr(ptr(uint8(0))), bcs.Some{}, map[uint8]uint8{}, map[any]uint8{}, map[string]uint8{}, map[string]any{},
	[]bcs.Entry{}, []entry{}, pay{}, tagged{}, swapped{}, hidden{}, fewer{}, more{}, tuple{}, untagged{}, bcs.Variant{}, either{}, level(0))

func typesOf(samples ...any) map[string]reflect.Type {
	found := map[string]reflect.Type{}
	for _, sample := range samples {
		found[reflect.TypeOf(sample).String()] = reflect.TypeOf(sample)
	}
	return found
}

// refusal answers what is refused of a value: the kind, the fault, and the pointer with the message below.
func refusal(err error) string {
	var refused *bcs.Error
	if !errors.As(err, &refused) {
		fail(err)
	}
	text := refused.At + "\n" + refused.Message
	return line(string(refused.Kind), refused.Reason, 0, len(text), []byte(text))
}

// encoded answers the bytes of a value, which come back.
func encoded(r *bcs.Registry, format, name string) string {
	value, is := values[name]
	if !is {
		fail(fmt.Errorf("no value is called %s", name))
	}
	data, err := r.Encode(format, value)
	if err != nil {
		return refusal(err)
	}
	back, err := r.Decode(format, data)
	fail(err)
	if again, err := r.Encode(format, back); err != nil || string(again) != string(data) {
		fail(fmt.Errorf("%x became %v, and that %x: %v", data, back, again, err))
	}
	return output(data, nil)
}

// decodedAs answers what bytes are as a type. An error leaves the variable as it is.
func decodedAs(r *bcs.Registry, format string, data []byte, name string) string {
	t, is := types[name]
	if !is {
		fail(fmt.Errorf("no type is called %s", name))
	}
	variable := reflect.New(t)
	before := fmt.Sprintf("%#v", variable.Elem().Interface())
	if err := r.Unmarshal(format, data, variable.Interface()); err != nil {
		if after := fmt.Sprintf("%#v", variable.Elem().Interface()); after != before {
			fail(fmt.Errorf("%v, and the variable is %s", err, after))
		}
		return refusal(err)
	}
	value := variable.Elem().Interface()
	if again, err := r.Encode(format, value); err != nil || string(again) != string(data) {
		fail(fmt.Errorf("%x became %v, and that %x: %v", data, value, again, err))
	}
	text, err := json.Marshal(variable.Interface())
	if err != nil {
		text = []byte(fmt.Sprint(value))
	}
	return output(text, nil)
}
