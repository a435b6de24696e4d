package bcsproved

import (
	"encoding/hex"
	"math/big"
	"reflect"
	"strconv"
	"strings"
	"unicode/utf8"
)

// writer writes a value as the JSON document that the proved call reads.
type writer struct {
	codec *codec
	out   []byte
	depth int
	nodes uint32 // that are left
	isKey bool   // of a Go map
}

// encoder writes values of one Go type as a format.
type encoder = converter[encode]

type encode = func(w *writer, v reflect.Value) error

const (
	// mostDepth ends cycles of pointers. No value has more levels: 100 of JSON, and 500 of newtypes.
	mostDepth = 600
	// mostJSON ends values that are huge because pointers share them.
	mostJSON = 1 << 30
)

// value writes a value, within the limits.
func (w *writer) value(e *encoder, v reflect.Value) error {
	if w.depth++; w.depth > mostDepth {
		return e.n.reject("nests too deep: is there a cycle of pointers in %s?", v.Type())
	}
	if w.nodes == 0 {
		return e.n.reject("has more nodes than the limits allow")
	}
	if len(w.out) > mostJSON {
		return e.n.reject("would be more than 1 GiB of JSON")
	}
	w.nodes--
	err := e.run(w, v)
	w.depth--
	return err
}

// dynamic writes what an interface holds. A typed nil inside a value is rejected; as the whole value it is its type's.
func (w *writer) dynamic(n *node, v reflect.Value, isWhole bool) error {
	if !v.IsValid() {
		if kind := n.content().kind; kind == kindOption || kind == kindUnit {
			w.out = append(w.out, "null"...)
			return nil
		}
		return n.mismatch(nil)
	}
	if w.isKey && contains(v.Type(), reflect.Pointer) {
		return n.rejectPointers(v.Type())
	}
	if v.Kind() == reflect.Pointer && v.IsNil() && !isWhole {
		return n.reject("takes no nil of type %s inside an interface", v.Type())
	}
	e, err := w.codec.encoder(n, v.Type())
	if err != nil {
		return err
	}
	return w.value(e, v)
}

// encoder returns the encoder for a format and a Go type. They are made once.
func (c *codec) encoder(n *node, t reflect.Type) (*encoder, error) {
	c.lock.Lock()
	defer c.lock.Unlock()
	return c.encoders.of(pair{n, t}, func(m *maker[encode], key pair, at *steps) (encode, error) {
		return encoders{m, at}.runOf(key.n, key.t)
	})
}

// encoders makes the encoder of a pair, at this place in a format.
type encoders struct {
	*maker[encode]
	at *steps
}

// part returns the encoder for a part of the format.
func (m encoders) part(n *node, t reflect.Type, step ...any) *encoder {
	return m.of(n, t, m.at.then(step...))
}

// runOf returns how values of a Go type are written as a format.
func (m encoders) runOf(n *node, t reflect.Type) (encode, error) {
	if err := n.rejectNoValue(t); err != nil {
		return nil, err
	}
	switch {
	case t == typeAny:
		return func(w *writer, v reflect.Value) error { return w.dynamic(n, v.Elem(), false) }, nil
	case n.content().kind == kindNone:
		return nil, n.mismatch(t)
	case n.kind == kindNewtype:
		e := m.part(n.parts[0], t)
		return func(w *writer, v reflect.Value) error { return w.value(e, v) }, nil
	case n.kind == kindOption:
		return m.option(n, t)
	case t.Kind() == reflect.Pointer:
		return m.pointer(n, t)
	}
	switch n.kind {
	case kindByteString, kindAddress:
		return bytesOut(n, t)
	case kindList:
		return m.list(n, t)
	case kindTuple:
		return m.tuple(n, t)
	case kindMap:
		return m.dictionary(n, t)
	case kindStruct:
		return m.structure(n, t)
	case kindEnum:
		return m.enum(n, t)
	}
	return scalar(n, t)
}

// scalar is runOf for formats without parts.
func scalar(n *node, t reflect.Type) (encode, error) {
	switch {
	case n.kind == kindUnit && t == typeUnit:
		return func(w *writer, v reflect.Value) error { w.out = append(w.out, "null"...); return nil }, nil
	case n.kind == kindBool && t.Kind() == reflect.Bool:
		return func(w *writer, v reflect.Value) error { w.out = strconv.AppendBool(w.out, v.Bool()); return nil }, nil
	case (n.kind == kindInteger || n.kind == kindBigInteger) && (isInteger(t) || t == typeBig):
		return func(w *writer, v reflect.Value) error { return w.integer(n, v) }, nil
	case n.kind == kindString && t.Kind() == reflect.String && t != typeHex:
		return func(w *writer, v reflect.Value) error {
			if !utf8.ValidString(v.String()) {
				return n.reject("takes UTF-8, not this %s", t)
			}
			w.text(v.String())
			return nil
		}, nil
	}
	return nil, n.mismatch(t)
}

func (m encoders) option(n *node, t reflect.Type) (encode, error) {
	var content reflect.Type
	switch {
	case t == typeSome:
		content = typeAny
	case t.Kind() == reflect.Pointer:
		content = t.Elem()
	default:
		return nil, n.mismatch(t)
	}
	e := m.part(n.parts[0], content, "some")
	return func(w *writer, v reflect.Value) error {
		switch {
		case t == typeSome:
			v = v.Field(0)
		case v.IsNil():
			w.out = append(w.out, "null"...)
			return nil
		default:
			v = v.Elem()
		}
		w.out = append(w.out, `{"some":`...)
		err := w.value(e, v)
		w.out = append(w.out, '}')
		return under(err, "some")
	}, nil
}

// pointer writes what a pointer leads to, where no option is.
func (m encoders) pointer(n *node, t reflect.Type) (encode, error) {
	if t.Elem().Kind() == reflect.Pointer {
		return nil, n.mismatch(t)
	}
	e := m.part(n, t.Elem())
	return func(w *writer, v reflect.Value) error {
		if v.IsNil() {
			return n.reject("takes no nil of type %s", t)
		}
		return e.run(w, v.Elem())
	}, nil
}

// integer writes an integer of any Go type. Its value must be in the format's range.
func (w *writer) integer(n *node, v reflect.Value) error {
	if n.kind == kindInteger && n.bits <= 64 && v.CanInt() && isInRange(v.Int(), n.bits, n.signed) {
		w.out = strconv.AppendInt(w.out, v.Int(), 10)
		return nil
	}
	x := bigOf(v)
	magnitude, bits := x, n.bits
	if n.signed {
		bits--
		if x.Sign() < 0 {
			magnitude = new(big.Int).Not(x)
		}
	}
	if x.Sign() < 0 && !n.signed || magnitude.BitLen() > bits {
		return n.reject("doesn't hold %s", digitsOf(x))
	}
	if n.kind == kindBigInteger {
		w.hex(littleEndian(x))
		return nil
	}
	w.out = append(append(append(w.out, '"'), x.String()...), '"')
	return nil
}

func isInRange(x int64, bits int, signed bool) bool {
	if signed {
		return x>>uint(bits-1) == x>>63
	}
	return x >= 0 && (bits == 64 || x>>uint(bits) == 0)
}

func bigOf(v reflect.Value) *big.Int {
	switch {
	case v.CanInt():
		return big.NewInt(v.Int())
	case v.CanUint():
		return new(big.Int).SetUint64(v.Uint())
	}
	x := v.Interface().(big.Int)
	return &x
}

// digitsOf returns a number's digits, or how many bits it has: an error may not cost more than the value.
func digitsOf(x *big.Int) string {
	if x.BitLen() > 512 {
		return "a number of " + strconv.Itoa(x.BitLen()) + " bits"
	}
	return x.String()
}

// littleEndian returns the 32 bytes of an integer, in two's complement.
func littleEndian(x *big.Int) []byte {
	if x.Sign() < 0 {
		x = new(big.Int).Add(x, new(big.Int).Lsh(big.NewInt(1), 8*addressLength))
	}
	data := x.FillBytes(make([]byte, addressLength))
	reverse(data)
	return data
}

func reverse(data []byte) {
	for i, j := 0, len(data)-1; i < j; i, j = i+1, j-1 {
		data[i], data[j] = data[j], data[i]
	}
}

const hexDigits = "0123456789abcdef"

func (w *writer) hex(data []byte) {
	start := len(w.out)
	w.out = append(w.out, make([]byte, 2*len(data)+2)...)
	digits := w.out[start:]
	digits[0], digits[len(digits)-1] = '"', '"'
	hex.Encode(digits[1:], data)
}

func (w *writer) text(s string) {
	w.out = append(w.out, '"')
	for i := 0; i < len(s); i++ {
		switch c := s[i]; {
		case c == '"' || c == '\\':
			w.out = append(w.out, '\\', c)
		case c < 0x20:
			w.out = append(w.out, `\u00`...)
			w.out = append(w.out, hexDigits[c>>4], hexDigits[c&15])
		default:
			w.out = append(w.out, c)
		}
	}
	w.out = append(w.out, '"')
}

// byteNode is the format of a byte that is given as an integer.
var byteNode = &node{kind: kindInteger, text: "U8", bits: 8}

// bytesOut is runOf for byte strings and addresses. A string is never bytes.
func bytesOut(n *node, t reflect.Type) (encode, error) {
	switch {
	case t == typeHex:
		return func(w *writer, v reflect.Value) error {
			data, err := hex.DecodeString(v.String())
			if err != nil {
				return n.reject("takes two hexadecimal digits for each byte: %v", err)
			}
			return w.byteString(n, data)
		}, nil
	case n.kind == kindAddress && t.Kind() == reflect.String:
		return func(w *writer, v reflect.Value) error {
			data, isAddress := addressOf(v.String())
			if !isAddress {
				return n.reject("takes 0x and 1 to 64 hexadecimal digits, not %q", v.String())
			}
			return w.byteString(n, data)
		}, nil
	case isBytes(t):
		return func(w *writer, v reflect.Value) error { return w.byteString(n, bytesOf(v)) }, nil
	case n.kind == kindByteString && isSequence(t):
		return integersOut(n, t)
	}
	return nil, n.mismatch(t)
}

// integersOut writes a list of integers as a byte string.
func integersOut(n *node, t reflect.Type) (encode, error) {
	if t.Elem() != typeAny && !isInteger(t.Elem()) && t.Elem() != typeBig && t.Elem() != reflect.PointerTo(typeBig) {
		return nil, under(byteNode.mismatch(t.Elem()), "-")
	}
	return func(w *writer, v reflect.Value) error {
		data := make([]byte, v.Len())
		for i := range data {
			var err error
			if data[i], err = byteOf(v.Index(i)); err != nil {
				return under(err, i)
			}
		}
		return w.byteString(n, data)
	}, nil
}

// byteOf returns the byte that an integer is, or what an interface or a pointer leads to.
func byteOf(v reflect.Value) (byte, error) {
	if v.Kind() == reflect.Interface {
		v = v.Elem()
	}
	if v.Kind() == reflect.Pointer {
		v = v.Elem()
	}
	if !v.IsValid() {
		return 0, byteNode.mismatch(nil)
	}
	if !isInteger(v.Type()) && v.Type() != typeBig {
		return 0, byteNode.mismatch(v.Type())
	}
	x := bigOf(v)
	if x.Sign() < 0 || x.BitLen() > 8 {
		return 0, byteNode.reject("doesn't hold %s", digitsOf(x))
	}
	return byte(x.Uint64()), nil
}

func bytesOf(v reflect.Value) []byte {
	if v.Kind() == reflect.Array && !v.CanAddr() {
		room := reflect.New(v.Type()).Elem()
		room.Set(v)
		v = room
	}
	return v.Bytes()
}

func (w *writer) byteString(n *node, data []byte) error {
	if n.length >= 0 && int64(len(data)) != n.length {
		return n.reject("has %d bytes, not %d", n.length, len(data))
	}
	w.hex(data)
	return nil
}

// addressOf reads an address: 0x and 1 to 64 hexadecimal digits.
func addressOf(s string) (data []byte, isAddress bool) {
	digits := strings.TrimPrefix(s, "0x")
	if digits == s || len(digits) == 0 || len(digits) > 2*addressLength {
		return nil, false
	}
	data, err := hex.DecodeString(strings.Repeat("0", 2*addressLength-len(digits)) + digits)
	return data, err == nil
}
