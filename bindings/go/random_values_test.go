package bcsproved

import (
	"bytes"
	"encoding/hex"
	"encoding/json"
	"fmt"
	"math/big"
	"math/rand"
	"os"
	"os/exec"
	"path/filepath"
	"reflect"
	"sort"
	"strconv"
	"strings"
	"testing"
)

var integers = map[string]reflect.Type{"U8": reflect.TypeOf(uint8(0)), "U16": reflect.TypeOf(uint16(0)), "U32": reflect.TypeOf(uint32(0)),
	"U64": reflect.TypeOf(uint64(0)), "I8": reflect.TypeOf(int8(0)), "I16": reflect.TypeOf(int16(0)), "I32": reflect.TypeOf(int32(0)),
	"I64": reflect.TypeOf(int64(0))}

var leaves = []string{"U8", "U16", "U32", "U64", "I8", "I16", "I32", "I64"}

// valueOf returns the value of words, of which each comes behind what it holds, as Decode returns it.
func valueOf(words string) any {
	var made []any
	bytesOf := func(digits string) []byte { data, _ := hex.DecodeString(digits); return data }
	count := func(digits string) int { count, _ := strconv.Atoi(digits); return count }
	last := func(count int) []any {
		parts := append([]any{}, made[len(made)-count:]...)
		made = made[:len(made)-count]
		return parts
	}
	for _, word := range strings.Fields(words) {
		names := strings.Split(word, ".")
		kind, rest, _ := strings.Cut(strings.TrimPrefix(names[0], "key-"), ":")
		names = names[1:]
		var value any
		switch kind {
		case "unit":
			value = struct{}{}
		case "true", "false":
			value = kind == "true"
		case "text":
			value = string(bytesOf(rest))
		case "bytes", "octets", "octet-array":
			value = bytesOf(rest)
		case "address":
			value = "0x" + rest
		case "none":
		case "some":
			value = Some{Value: last(1)[0]}
		case "newtype":
			value = last(1)[0]
		case "list", "array", "tuple":
			value = last(count(rest))
		case "map":
			entries := []Entry{}
			for parts := last(2 * count(rest)); len(parts) > 0; parts = parts[2:] {
				entries = append(entries, Entry{Key: parts[0], Value: parts[1]})
			}
			value = entries
		case "struct":
			fields := map[string]any{}
			for i, part := range last(len(names)) {
				fields[string(bytesOf(names[i]))] = part
			}
			value = fields
		case "variant":
			variant := Variant{Name: string(bytesOf(names[1]))}
			if names[0] != "UNIT" {
				variant.Value = last(1)[0]
			}
			value = variant
		default:
			integer, _ := new(big.Int).SetString(rest, 10)
			value = integer
			if rest == "0" && strings.HasSuffix(kind, "256") {
				value = new(big.Int).SetBit(big.NewInt(1), 0, 0) // (DeepEqual compares how a zero was made, too)
			}
			if t := integers[kind]; t != nil {
				value = reflect.ValueOf(integer.Int64()).Convert(t).Interface()
			}
			if kind == "U64" {
				value = integer.Uint64()
			}
		}
		made = append(made, value)
	}
	return made[0]
}

// types draws Go types for the formats of a registry.
type types struct {
	containers map[string]any
	*rand.Rand
}

func only(object any) (string, any) {
	for name, value := range object.(map[string]any) {
		return name, value
	}
	return "", nil
}

func (t types) oneOf(choices ...reflect.Type) reflect.Type { return choices[t.Intn(len(choices))] }

// fields is a struct with these tags, whose fields have the types of formats, or are pointers to them.
func (t types) fields(names []string, formats []any, arePointers bool) reflect.Type {
	var out []reflect.StructField
	for i, format := range formats {
		held := t.of(format)
		if arePointers {
			held = reflect.PointerTo(held)
		}
		out = append(out, reflect.StructField{Name: fmt.Sprint("F", i), Type: held, Tag: reflect.StructTag("bcs:" + strconv.Quote(names[i]))})
	}
	t.Shuffle(len(out), func(i, j int) { out[i], out[j] = out[j], out[i] })
	return reflect.StructOf(out)
}

// of makes a Go type that holds the format's values.
func (t types) of(format any) reflect.Type {
	if word, isWord := format.(string); isWord {
		return t.ofLeaf(word)
	}
	kind, inner := only(format)
	switch kind {
	case "TYPENAME":
		name := inner.(string)
		if name == "address" {
			return reflect.TypeOf("")
		}
		if name == "u256" || name == "i256" {
			return reflect.PointerTo(typeBig)
		}
		return t.of(t.containers[name])
	case "OPTION":
		return reflect.PointerTo(t.of(inner))
	case "SEQ":
		return reflect.SliceOf(t.of(inner))
	case "TUPLEARRAY":
		item, size := t.of(inner.(map[string]any)["CONTENT"]), inner.(map[string]any)["SIZE"].(float64)
		return t.oneOf(reflect.ArrayOf(int(size), item), reflect.SliceOf(item))
	case "MAP":
		key, value := t.of(inner.(map[string]any)["KEY"]), t.of(inner.(map[string]any)["VALUE"])
		if k := key.Kind(); k != reflect.Pointer && k != reflect.Struct && k != reflect.Array && k != reflect.Interface && key.Comparable() {
			return reflect.MapOf(key, value)
		}
		return reflect.SliceOf(reflect.StructOf([]reflect.StructField{{Name: "Key", Type: key}, {Name: "Value", Type: value}}))
	case "NEWTYPE", "NEWTYPESTRUCT":
		return t.of(inner)
	case "TUPLE", "TUPLESTRUCT":
		formats := inner.([]any)
		if len(formats) == 0 {
			return reflect.TypeOf([]any{})
		}
		return t.fields(strings.Fields("0 1 2 3"), formats, false)
	}
	var names []string
	var formats []any
	if kind == "STRUCT" {
		for _, field := range inner.([]any) {
			name, held := only(field)
			names, formats = append(names, name), append(formats, held)
		}
		return t.fields(names, formats, false)
	}
	variants := reflect.ValueOf(inner).MapKeys()
	sort.Slice(variants, func(i, j int) bool { return variants[i].String() < variants[j].String() })
	for _, number := range variants {
		name, held := only(inner.(map[string]any)[number.String()])
		names, formats = append(names, name), append(formats, held)
	}
	return t.oneOf(t.fields(names, formats, true), typeVariant)
}

func (t types) ofLeaf(word string) reflect.Type {
	octets := reflect.TypeOf([]byte{})
	if leaf := map[string]reflect.Type{"UNIT": typeUnit, "UNITSTRUCT": typeUnit, "BOOL": reflect.TypeOf(false),
		"STR": reflect.TypeOf(""), "BYTES": t.oneOf(octets, typeHex)}[word]; leaf != nil {
		return leaf
	}
	choices, bits := []reflect.Type{reflect.PointerTo(typeBig)}, 0
	fmt.Sscan(word[1:], &bits)
	if word == "U8" {
		return integers[word] // a list of other integers isn't a byte string when decoded
	}
	for _, name := range leaves { // (in the same order in each run)
		if t := integers[name]; name[0] == word[0] && t.Bits() >= bits {
			choices = append(choices, t)
		}
	}
	return t.oneOf(choices...)
}

// randomValue is a line of tests/rows/random_values.py, and a Go type for its format.
type randomValue struct {
	registry      *Registry
	format, words string
	data, changed []byte
	goType        reflect.Type
}

// roundsOfTest returns the variable ROUNDS, or 30.
func roundsOfTest(t *testing.T) int {
	text := os.Getenv("ROUNDS")
	if text == "" {
		return 30
	}
	rounds, err := strconv.Atoi(text)
	if err != nil || rounds < 1 {
		t.Fatalf("ROUNDS=%s", text)
	}
	return rounds
}

// forRandomValues calls a function with 250 values for each round.
func forRandomValues(t *testing.T, draw *rand.Rand, test func(v randomValue) error) {
	rounds, values, last := roundsOfTest(t), 0, ""
	script := filepath.Join(os.Getenv("BCS_EXAMPLES"), "../tests/rows/random_values.py")
	lines, err := exec.Command("python3", script, fmt.Sprint(rounds*250/20+1)).Output()
	if err != nil {
		t.Fatal(script, err)
	}
	var registry *Registry
	var containers map[string]any
	for _, line := range strings.Split(strings.TrimSpace(string(lines)), "\n") {
		words := strings.Split(line, "\t")
		if words[0] != last {
			last, registry, containers = words[0], open(t, words[0]), nil
			err = json.Unmarshal([]byte(last), &containers)
		}
		var format any
		if err2 := json.Unmarshal([]byte(words[1]), &format); err != nil || err2 != nil {
			t.Fatal(err, err2)
		}
		data, changed := unhex(t, words[3]), unhex(t, strings.TrimSuffix(words[4], "-"))
		if err := test(randomValue{registry, words[1], words[2], data, changed, types{containers, draw}.of(format)}); err != nil {
			t.Fatalf("%s: %v", line, err)
		}
		values++
	}
	if values < 250*rounds {
		t.Errorf("only %d values", values)
	}
}

// ROUNDS=200 tries 50,000 values.
func TestRandomValues(t *testing.T) {
	forRandomValues(t, rand.New(rand.NewSource(1)), func(v randomValue) error {
		if err := changedBytes(v.registry, v.format, v.changed); err != nil {
			return err
		}
		return thereAndBack(v.registry, v.format, valueOf(v.words), v.data, v.goType)
	})
}

// thereAndBack encodes a value and decodes it, without and with a Go type.
func thereAndBack(registry *Registry, format string, v any, data []byte, goType reflect.Type) error {
	if got, err := registry.Encode(format, v); err != nil || !bytes.Equal(got, data) {
		return fmt.Errorf("Encode: %x, %v", got, err)
	}
	if back, err := registry.Decode(format, data); err != nil || !reflect.DeepEqual(back, v) {
		return fmt.Errorf("Decode: %#v, %v", back, err)
	}
	variable := reflect.New(goType)
	if err := registry.Unmarshal(format, data, variable.Interface()); err != nil {
		return fmt.Errorf("Unmarshal into %s: %v", goType, err)
	}
	if got, err := registry.Encode(format, variable.Elem().Interface()); err != nil || !bytes.Equal(got, data) {
		return fmt.Errorf("Encode of %s: %x, %v", goType, got, err)
	}
	return nil
}

// changedBytes fails if these are the bytes of a value, and this value has others.
func changedBytes(registry *Registry, format string, bad []byte) error {
	v, err := registry.Decode(format, bad)
	if err != nil {
		return nil
	}
	if got, err := registry.Encode(format, v); err != nil || !bytes.Equal(got, bad) {
		return fmt.Errorf("%x: %x, %v", bad, got, err)
	}
	return nil
}

func uleb(n int) (out []byte) {
	for ; n > 127; n >>= 7 {
		out = append(out, byte(n)|128)
	}
	return append(out, byte(n))
}
