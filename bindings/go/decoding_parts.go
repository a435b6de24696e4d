package bcsproved

import (
	"reflect"
	"strings"
)

func (m decoders) option(n *node, t reflect.Type) (decode, error) {
	content := typeAny
	switch {
	case t.Kind() == reflect.Pointer:
		content = t.Elem()
	case t != typeSome && t != typeAny:
		return nil, n.mismatch(t)
	}
	d := m.part(n.parts[0], content, "some")
	return func(r *reader, v reflect.Value) error {
		if r.take("null") {
			if t == typeSome {
				return n.reject("is nil here, which %s can't hold", t)
			}
			return nil
		}
		r.must(`{"some":`)
		room := reflect.New(content)
		if err := d.run(r, room.Elem()); err != nil {
			return under(err, "some")
		}
		r.must("}")
		if t.Kind() == reflect.Pointer {
			v.Set(room.Convert(t))
		} else {
			v.Set(reflect.ValueOf(Some{room.Elem().Interface()}))
		}
		return nil
	}, nil
}

// each reads an array, and calls `element` at each element. It returns how many there are.
func (r *reader) each(element func(i int) error) (int, error) {
	r.must("[")
	if r.take("]") {
		return 0, nil
	}
	for i := 0; ; i++ {
		if err := element(i); err != nil {
			return i, under(err, i)
		}
		if r.take("]") {
			return i + 1, nil
		}
		r.must(",")
	}
}

func (m decoders) list(n *node, t reflect.Type) (decode, error) {
	if !isSequence(t) {
		return nil, n.mismatch(t)
	}
	if t.Kind() == reflect.Array && n.length >= 0 && int64(t.Len()) != n.length {
		return nil, n.reject("has %d elements, not those of %s", n.length, t)
	}
	d := m.part(n.parts[0], t.Elem(), "-")
	if t.Kind() == reflect.Slice {
		return intoSlice(t, func(r *reader, v reflect.Value) error { return d.run(r, v) }), nil
	}
	return func(r *reader, v reflect.Value) error {
		length, err := r.each(func(i int) error {
			if i >= v.Len() {
				return n.reject("has more elements here than %s", t)
			}
			return d.run(r, v.Index(i))
		})
		if err == nil && length != v.Len() {
			return n.reject("has fewer elements here than %s", t)
		}
		return err
	}, nil
}

// intoSlice stores an array in a slice.
func intoSlice(t reflect.Type, element decode) decode {
	zero := reflect.Zero(t.Elem())
	return func(r *reader, v reflect.Value) error {
		out := reflect.MakeSlice(t, 0, 4)
		_, err := r.each(func(i int) error {
			out = reflect.Append(out, zero)
			return element(r, out.Index(i))
		})
		v.Set(out)
		return err
	}
}

func (m decoders) tuple(n *node, t reflect.Type) (decode, error) {
	indices, err := n.elements(t)
	if err != nil {
		return nil, err
	}
	each := make([]*decoder, len(n.parts))
	for i, part := range n.parts {
		each[i] = m.part(part, partType(t, indices, i), i)
	}
	return func(r *reader, v reflect.Value) error {
		if t.Kind() == reflect.Slice {
			v.Set(reflect.MakeSlice(t, len(each), len(each)))
		}
		start := r.at
		length, err := r.each(func(i int) error {
			if i >= len(each) {
				panic(notNormal{start})
			}
			return each[i].run(r, partValue(v, indices, i))
		})
		if err == nil && length != len(each) {
			panic(notNormal{start})
		}
		return err
	}, nil
}

func (m decoders) dictionary(n *node, t reflect.Type) (decode, error) {
	keyType, valueType, err := n.entryTypes(t)
	if err != nil {
		return nil, err
	}
	if t.Kind() == reflect.Map && contains(keyType, reflect.Interface) { // which may hold what no key can be
		return nil, n.reject("takes no interfaces in the keys of a map when decoded: %s", t)
	}
	keys, values := m.part(n.parts[0], keyType, "-", 0), m.part(n.parts[1], valueType, "-", 1)
	entry := func(r *reader, key, value reflect.Value) error {
		r.must("[")
		if err := keys.run(r, key); err != nil {
			return under(err, 0)
		}
		r.must(",")
		if err := values.run(r, value); err != nil {
			return under(err, 1)
		}
		r.must("]")
		return nil
	}
	if t.Kind() == reflect.Slice {
		return intoSlice(t, func(r *reader, v reflect.Value) error { return entry(r, v.Field(0), v.Field(1)) }), nil
	}
	return intoMap(n, t, entry), nil
}

// intoMap stores entries in a Go map. Different keys of the format must be different keys of Go.
func intoMap(n *node, t reflect.Type, entry func(r *reader, key, value reflect.Value) error) decode {
	return func(r *reader, v reflect.Value) error {
		out := reflect.MakeMap(t)
		length, err := r.each(func(int) error {
			key, value := reflect.New(t.Key()).Elem(), reflect.New(t.Elem()).Elem()
			if err := entry(r, key, value); err != nil {
				return err
			}
			out.SetMapIndex(key, value)
			return nil
		})
		if err == nil && out.Len() != length {
			return n.reject("has %d keys here, and %s only %d of them", length, t, out.Len())
		}
		v.Set(out)
		return err
	}
}

func (m decoders) structure(n *node, t reflect.Type) (decode, error) {
	var indices []int
	var err error
	switch {
	case isPlainStruct(t):
		if indices, err = n.fields(n.names, t, false); err != nil {
			return nil, err
		}
	case !isStringMap(t):
		return nil, n.mismatch(t)
	}
	each, starts := make([]*decoder, len(n.parts)), make([]string, len(n.parts))
	for i, part := range n.parts {
		each[i] = m.part(part, partType(t, indices, i), n.names[i])
		starts[i] = normalString(n.names[i]) + ":"
	}
	return func(r *reader, v reflect.Value) error {
		if t.Kind() == reflect.Map {
			v.Set(reflect.MakeMapWithSize(t, len(each)))
		}
		r.must("{")
		for place, i := range n.sorted {
			if place > 0 {
				r.must(",")
			}
			r.must(starts[i])
			if err := n.storeField(r, each[i], v, indices, i); err != nil {
				return under(err, n.names[i])
			}
		}
		r.must("}")
		return nil
	}, nil
}

// storeField stores a field in a Go struct, or in a map.
func (n *node) storeField(r *reader, d *decoder, v reflect.Value, indices []int, i int) error {
	if v.Kind() == reflect.Struct {
		return d.run(r, v.Field(indices[i]))
	}
	value := reflect.New(v.Type().Elem()).Elem()
	if err := d.run(r, value); err != nil {
		return err
	}
	v.SetMapIndex(reflect.ValueOf(n.names[i]).Convert(v.Type().Key()), value)
	return nil
}

var shortEscapes = strings.NewReplacer(`\u0008`, `\b`, `\u0009`, `\t`, `\u000a`, `\n`, `\u000c`, `\f`, `\u000d`, `\r`)

// normalString returns a string in the form of normal JSON, which is serde_json's.
func normalString(s string) string {
	w := &writer{}
	for i := 0; i < len(s); i++ {
		if s[i] >= 0x20 && s[i] != '\\' && s[i] != '"' {
			w.out = append(w.out, s[i])
			continue
		}
		one := &writer{}
		one.text(s[i : i+1])
		w.out = append(w.out, shortEscapes.Replace(string(one.out[1:len(one.out)-1]))...)
	}
	return `"` + string(w.out) + `"`
}

func (m decoders) enum(n *node, t reflect.Type) (decode, error) {
	if t == typeVariant {
		return m.variant(n), nil
	}
	if !isPointers(t) {
		return nil, n.mismatch(t)
	}
	indices, err := n.fields(n.names, t, true)
	if err != nil {
		return nil, err
	}
	each := make([]*decoder, len(indices))
	for k, i := range indices {
		if i != missing {
			each[k] = m.part(n.parts[k], t.Field(i).Type.Elem(), n.names[k])
		}
	}
	return func(r *reader, v reflect.Value) error {
		k, payload := r.chosen(n)
		if indices[k] == missing {
			return n.reject("is %q here, and %s has no field for it", n.names[k], t)
		}
		field := v.Field(indices[k])
		room := reflect.New(field.Type().Elem())
		if err := payload(func(r *reader) error { return each[k].run(r, room.Elem()) }); err != nil {
			return err
		}
		field.Set(room.Convert(field.Type()))
		return nil
	}, nil
}

// variant stores an enum's value in a Variant.
func (m decoders) variant(n *node) decode {
	each := make([]*decoder, len(n.parts))
	for k, part := range n.parts {
		each[k] = m.part(part, typeAny, n.names[k])
	}
	return func(r *reader, v reflect.Value) error {
		k, payload := r.chosen(n)
		value := reflect.New(typeAny).Elem()
		err := payload(func(r *reader) error {
			if n.parts[k].kind == kindUnit {
				return nil // not struct{}{}: so a unit variant is its name alone
			}
			return each[k].run(r, value)
		})
		if err != nil {
			return err
		}
		v.Set(reflect.ValueOf(Variant{n.names[k], value.Interface()}))
		return nil
	}
}

// chosen reads the name of a variant. It returns its index, and what reads its payload, which a unit variant doesn't print.
func (r *reader) chosen(n *node) (int, func(read func(r *reader) error) error) {
	isObject, start := r.take("{"), r.at
	k := n.indexOf(r.string())
	if k == missing {
		panic(notNormal{start})
	}
	return k, func(read func(r *reader) error) error {
		if !isObject {
			return under(read(&reader{text: []byte("null")}), n.names[k])
		}
		r.must(":")
		if err := read(r); err != nil {
			return under(err, n.names[k])
		}
		r.must("}")
		return nil
	}
}
