package bcsproved

import (
	"encoding/hex"
	"encoding/json"
	"fmt"
	"math/big"
	"reflect"
	"strconv"
)

// reader reads the normal JSON that the proved call printed. Its form is known, so it rejects only what a Go type can't hold.
type reader struct {
	text []byte
	at   int
}

// notNormal is raised if the JSON isn't that of the format after all.
type notNormal struct{ at int }

// take skips a piece of text if it comes next.
func (r *reader) take(piece string) bool {
	if r.at+len(piece) <= len(r.text) && string(r.text[r.at:r.at+len(piece)]) == piece {
		r.at += len(piece)
		return true
	}
	return false
}

func (r *reader) must(piece string) {
	if !r.take(piece) {
		panic(notNormal{r.at})
	}
}

// next returns the next byte.
func (r *reader) next() byte {
	if r.at >= len(r.text) {
		panic(notNormal{r.at})
	}
	return r.text[r.at]
}

// plain returns what is in a string without escapes.
func (r *reader) plain() []byte {
	r.must(`"`)
	start := r.at
	for r.next() != '"' {
		r.at++
	}
	r.at++
	return r.text[start : r.at-1]
}

func (r *reader) string() string {
	start, isEscaped := r.at, false
	r.must(`"`)
	for r.next() != '"' {
		if r.next() == '\\' {
			isEscaped = true
			r.at++
		}
		r.at++
	}
	r.at++
	if !isEscaped {
		return string(r.text[start+1 : r.at-1])
	}
	var s string
	if err := json.Unmarshal(r.text[start:r.at], &s); err != nil {
		panic(notNormal{start})
	}
	return s
}

// digits returns a number. Those of more than 32 bits are in a string.
func (r *reader) digits() string {
	isQuoted := r.take(`"`)
	start := r.at
	for r.at < len(r.text) && (r.text[r.at] == '-' || r.text[r.at] >= '0' && r.text[r.at] <= '9') {
		r.at++
	}
	digits := string(r.text[start:r.at])
	if isQuoted {
		r.must(`"`)
	}
	return digits
}

func (r *reader) bytes() []byte {
	start := r.at
	digits := r.plain()
	data := make([]byte, len(digits)/2)
	if _, err := hex.Decode(data, digits); err != nil {
		panic(notNormal{start})
	}
	return data
}

func (r *reader) big(n *node) *big.Int {
	if n.kind == kindBigInteger {
		return fromLittleEndian(r.bytes(), n.signed)
	}
	start := r.at
	x, isNumber := new(big.Int).SetString(r.digits(), 10)
	if !isNumber {
		panic(notNormal{start})
	}
	if x.Sign() == 0 {
		return new(big.Int) // reflect.DeepEqual tells this zero from the one of SetString
	}
	return x
}

// fromLittleEndian is the inverse of littleEndian.
func fromLittleEndian(data []byte, isSigned bool) *big.Int {
	reverse(data)
	x := new(big.Int).SetBytes(data)
	if isSigned && x.Bit(8*len(data)-1) == 1 {
		x.Sub(x, new(big.Int).Lsh(big.NewInt(1), uint(8*len(data))))
	}
	return x
}

// decoder stores values of a format in variables of one Go type.
type decoder = converter[decode]

type decode = func(r *reader, v reflect.Value) error

// whole stores the value of a whole document.
func (r *reader) whole(d *decoder, v reflect.Value) (err error) {
	defer func() {
		switch fault := recover().(type) {
		case nil:
		case notNormal:
			err = fmt.Errorf("bcs: the library printed JSON that isn't normal, at byte %d", fault.at)
		default:
			panic(fault)
		}
	}()
	if err := d.run(r, v); err != nil {
		return err
	}
	if r.at != len(r.text) {
		panic(notNormal{r.at})
	}
	return nil
}

// decoder returns the decoder for a format and a Go type. They are made once.
func (c *codec) decoder(n *node, t reflect.Type) (*decoder, error) {
	c.lock.Lock()
	defer c.lock.Unlock()
	return c.decoders.of(pair{n, t}, func(m *maker[decode], key pair, at *steps) (decode, error) {
		return decoders{m, at}.runOf(key.n, key.t)
	})
}

// decoders makes the decoder of a pair, at this place in a format.
type decoders struct {
	*maker[decode]
	at *steps
}

// part returns the decoder for a part of the format.
func (m decoders) part(n *node, t reflect.Type, step ...any) *decoder {
	return m.of(n, t, m.at.then(step...))
}

// runOf returns how values of a format are stored in a Go type.
func (m decoders) runOf(n *node, t reflect.Type) (decode, error) {
	if err := n.rejectNoValue(t); err != nil {
		return nil, err
	}
	switch {
	case n.content().kind == kindNone && t == typeAny: // of a variant, maybe, that no value has
		return func(*reader, reflect.Value) error { return n.mismatch(t) }, nil
	case n.content().kind == kindNone:
		return nil, n.mismatch(t)
	case n.kind == kindNewtype:
		d := m.part(n.parts[0], t)
		return func(r *reader, v reflect.Value) error { return d.run(r, v) }, nil
	case n.kind == kindOption:
		return m.option(n, t)
	case t == typeAny:
		return m.dynamic(n), nil
	case t.Kind() == reflect.Pointer && t.Elem().Kind() != reflect.Pointer:
		return m.pointer(n, t), nil
	}
	switch n.kind {
	case kindByteString, kindAddress:
		return intoBytes(n, t)
	case kindList:
		return m.list(n, t)
	case kindTuple:
		return m.tuple(n, t)
	case kindMap:
		return m.dictionary(n, t)
	case kindStruct:
		return m.structure(n, t)
	case kindEnum:
		return m.enum(n, t)
	}
	return intoScalar(n, t)
}

// pointer stores a value in a new variable, where no option is.
func (m decoders) pointer(n *node, t reflect.Type) decode {
	d := m.part(n, t.Elem())
	return func(r *reader, v reflect.Value) error {
		v.Set(reflect.New(t.Elem()))
		return d.run(r, v.Elem())
	}
}

// dynamic stores a value in an `any`, with the type that Decode returns.
func (m decoders) dynamic(n *node) decode {
	t := n.decodedType()
	d := m.part(n, t)
	return func(r *reader, v reflect.Value) error {
		room := reflect.New(t).Elem()
		err := d.run(r, room)
		v.Set(room)
		return err
	}
}

var integerTypes = map[string]reflect.Type{
	"I8": reflect.TypeOf(int8(0)), "I16": reflect.TypeOf(int16(0)), "I32": reflect.TypeOf(int32(0)), "I64": reflect.TypeOf(int64(0)),
	"U8": reflect.TypeOf(uint8(0)), "U16": reflect.TypeOf(uint16(0)), "U32": reflect.TypeOf(uint32(0)), "U64": reflect.TypeOf(uint64(0)),
}

// decodedType is what Decode returns for a format that isn't an option or a newtype.
func (n *node) decodedType() reflect.Type {
	switch n.kind {
	case kindUnit:
		return typeUnit
	case kindBool:
		return reflect.TypeOf(false)
	case kindInteger, kindBigInteger:
		if t, isSmall := integerTypes[n.text]; isSmall && n.kind == kindInteger {
			return t
		}
		return reflect.PointerTo(typeBig)
	case kindString, kindAddress:
		return reflect.TypeOf("")
	case kindByteString:
		return reflect.TypeOf([]byte{})
	case kindMap:
		return reflect.TypeOf([]Entry{})
	case kindStruct:
		return reflect.TypeOf(map[string]any{})
	case kindEnum:
		return typeVariant
	default:
		return reflect.TypeOf([]any{})
	}
}

// intoScalar is runOf for formats without parts.
func intoScalar(n *node, t reflect.Type) (decode, error) {
	switch {
	case n.kind == kindUnit && t == typeUnit:
		return func(r *reader, v reflect.Value) error { r.must("null"); return nil }, nil
	case n.kind == kindBool && t.Kind() == reflect.Bool:
		return func(r *reader, v reflect.Value) error {
			isTrue := r.take("true")
			if !isTrue {
				r.must("false")
			}
			v.SetBool(isTrue)
			return nil
		}, nil
	case (n.kind == kindInteger || n.kind == kindBigInteger) && t == typeBig:
		return func(r *reader, v reflect.Value) error { v.Set(reflect.ValueOf(r.big(n)).Elem()); return nil }, nil
	case n.kind == kindInteger && isInteger(t):
		return intoInteger(n, t)
	case n.kind == kindString && t.Kind() == reflect.String && t != typeHex:
		return func(r *reader, v reflect.Value) error { v.SetString(r.string()); return nil }, nil
	}
	return nil, n.mismatch(t)
}

// intoInteger rejects types that don't hold all numbers of the format, so whether a program works doesn't depend on its data.
func intoInteger(n *node, t reflect.Type) (decode, error) {
	bits, isSigned := t.Bits(), t.Kind() <= reflect.Int64
	if t.Kind() == reflect.Int || t.Kind() == reflect.Uint {
		bits = 32 // as on some systems: a program works on all or on none
	}
	if fits := isSigned == n.signed && bits >= n.bits || isSigned && !n.signed && bits > n.bits; !fits {
		return nil, n.reject("doesn't fit in %s", t)
	}
	return func(r *reader, v reflect.Value) error {
		start, digits := r.at, r.digits()
		var err error
		if isSigned {
			var x int64
			x, err = strconv.ParseInt(digits, 10, 64)
			v.SetInt(x)
		} else {
			var x uint64
			x, err = strconv.ParseUint(digits, 10, 64)
			v.SetUint(x)
		}
		if err != nil {
			panic(notNormal{start})
		}
		return nil
	}, nil
}

// intoBytes is runOf for byte strings and addresses.
func intoBytes(n *node, t reflect.Type) (decode, error) {
	switch {
	case t == typeHex:
		return func(r *reader, v reflect.Value) error { v.SetString(string(r.plain())); return nil }, nil
	case n.kind == kindAddress && t.Kind() == reflect.String:
		return func(r *reader, v reflect.Value) error { v.SetString("0x" + string(r.plain())); return nil }, nil
	case !isBytes(t):
		return nil, n.mismatch(t)
	case t.Kind() == reflect.Slice:
		return func(r *reader, v reflect.Value) error { v.SetBytes(r.bytes()); return nil }, nil
	case n.length >= 0 && int64(t.Len()) != n.length:
		return nil, n.reject("has %d bytes, not those of %s", n.length, t)
	}
	return func(r *reader, v reflect.Value) error {
		data := r.bytes()
		if len(data) != t.Len() {
			return n.reject("has %d bytes here, not those of %s", len(data), t)
		}
		copy(v.Bytes(), data)
		return nil
	}, nil
}
