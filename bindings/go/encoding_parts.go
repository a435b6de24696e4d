package bcsproved

import (
	"fmt"
	"reflect"
)

// list is runOf for lists and arrays.
func (m encoders) list(n *node, t reflect.Type) (encode, error) {
	if !isSequence(t) {
		return nil, n.mismatch(t)
	}
	if t.Kind() == reflect.Array && n.length >= 0 && int64(t.Len()) != n.length {
		return nil, n.reject("has %d elements, not those of %s", n.length, t)
	}
	e := m.part(n.parts[0], t.Elem(), "-")
	return func(w *writer, v reflect.Value) error {
		if n.length >= 0 && int64(v.Len()) != n.length {
			return n.reject("has %d elements, not %d", n.length, v.Len())
		}
		w.out = append(w.out, '[')
		for i, length := 0, v.Len(); i < length; i++ {
			w.comma(i)
			if err := w.value(e, v.Index(i)); err != nil {
				return under(err, i)
			}
		}
		w.out = append(w.out, ']')
		return nil
	}, nil
}

// comma separates an element from the one before it.
func (w *writer) comma(i int) {
	if i > 0 {
		w.out = append(w.out, ',')
	}
}

// tuple is runOf for tuples: slices, arrays, and structs whose tags are positions.
func (m encoders) tuple(n *node, t reflect.Type) (encode, error) {
	indices, err := n.elements(t)
	if err != nil {
		return nil, err
	}
	each := make([]*encoder, len(n.parts))
	for i, part := range n.parts {
		each[i] = m.part(part, partType(t, indices, i), i)
	}
	return func(w *writer, v reflect.Value) error {
		if indices == nil && v.Len() != len(each) {
			return n.reject("has %d elements, not %d", len(each), v.Len())
		}
		w.out = append(w.out, '[')
		for i, e := range each {
			w.comma(i)
			if err := w.value(e, partValue(v, indices, i)); err != nil {
				return under(err, i)
			}
		}
		w.out = append(w.out, ']')
		return nil
	}, nil
}

// elements returns the indices of a struct's fields by position, or nil for slices and arrays.
func (n *node) elements(t reflect.Type) ([]int, error) {
	switch {
	case isPlainStruct(t) && t != typeUnit:
		return n.fields(n.positions(), t, false)
	case !isSequence(t):
		return nil, n.mismatch(t)
	case t.Kind() == reflect.Array && t.Len() != len(n.parts):
		return nil, n.reject("has %d elements, not those of %s", len(n.parts), t)
	}
	return nil, nil
}

// partType is the type of a part of a struct, or of the elements of a slice, an array or a map.
func partType(t reflect.Type, indices []int, i int) reflect.Type {
	if indices == nil {
		return t.Elem()
	}
	return t.Field(indices[i]).Type
}

func partValue(v reflect.Value, indices []int, i int) reflect.Value {
	if indices == nil {
		return v.Index(i)
	}
	return v.Field(indices[i])
}

// entryTypes returns the types of the keys and values of a Go map, or of a slice of entries.
func (n *node) entryTypes(t reflect.Type) (key, value reflect.Type, err error) {
	switch {
	case t.Kind() == reflect.Map && contains(t.Key(), reflect.Pointer):
		return nil, nil, n.rejectPointers(t)
	case t.Kind() == reflect.Map:
		return t.Key(), t.Elem(), nil
	case t.Kind() == reflect.Slice && isEntry(t.Elem()):
		return t.Elem().Field(0).Type, t.Elem().Field(1).Type, nil
	}
	return nil, nil, n.mismatch(t)
}

// rejectPointers rejects keys of Go maps that are equal only if they are the same variable.
func (n *node) rejectPointers(t reflect.Type) error {
	return n.reject("takes no pointers in the keys of a map: %s", t)
}

// dictionary is runOf for maps.
func (m encoders) dictionary(n *node, t reflect.Type) (encode, error) {
	keyType, valueType, err := n.entryTypes(t)
	if err != nil {
		return nil, err
	}
	keys, values := m.part(n.parts[0], keyType, "-", 0), m.part(n.parts[1], valueType, "-", 1)
	entry := func(w *writer, i int, key, value reflect.Value) error {
		w.comma(i)
		w.out = append(w.out, '[')
		w.isKey = t.Kind() == reflect.Map
		if err := w.value(keys, key); err != nil {
			return under(err, i, 0)
		}
		w.isKey = false
		w.out = append(w.out, ',')
		if err := w.value(values, value); err != nil {
			return under(err, i, 1)
		}
		w.out = append(w.out, ']')
		return nil
	}
	return func(w *writer, v reflect.Value) error {
		w.out = append(w.out, '[')
		if err := eachEntry(w, v, entry); err != nil {
			return err
		}
		w.out = append(w.out, ']')
		return nil
	}, nil
}

// eachEntry writes the entries of a map in any order, and those of a slice in its own: the proved call sorts them. So an error
// in a map also names the key.
func eachEntry(w *writer, v reflect.Value, entry func(w *writer, i int, key, value reflect.Value) error) error {
	if v.Kind() == reflect.Map {
		entries := v.MapRange()
		for i := 0; entries.Next(); i++ {
			if err := entry(w, i, entries.Key(), entries.Value()); err != nil {
				return atKey(err, entries.Key())
			}
		}
		return nil
	}
	for i := 0; i < v.Len(); i++ {
		if err := entry(w, i, v.Index(i).Field(0), v.Index(i).Field(1)); err != nil {
			return err
		}
	}
	return nil
}

// atKey adds a key to the message of an error, if it is a string or an integer.
func atKey(err error, key reflect.Value) error {
	rejected, is := err.(*Error)
	if !is || rejected == nil {
		return err
	}
	if key.Kind() == reflect.Interface {
		key = key.Elem()
	}
	moved := *rejected
	switch {
	case key.Kind() == reflect.String:
		moved.Message += fmt.Sprintf(" (at the key %.100q)", key.String())
	case key.CanInt():
		moved.Message += fmt.Sprintf(" (at the key %d)", key.Int())
	case key.CanUint():
		moved.Message += fmt.Sprintf(" (at the key %d)", key.Uint())
	}
	return &moved
}

// structure is runOf for structs: Go structs, and maps with a value for each field.
func (m encoders) structure(n *node, t reflect.Type) (encode, error) {
	var indices []int
	var err error
	switch {
	case isPlainStruct(t):
		if indices, err = n.fields(n.names, t, false); err != nil {
			return nil, err
		}
	case !isStringMap(t):
		return nil, n.mismatch(t)
	}
	each, starts := make([]*encoder, len(n.parts)), make([]string, len(n.parts))
	for i, part := range n.parts {
		each[i] = m.part(part, partType(t, indices, i), n.names[i])
		w := &writer{}
		w.text(n.names[i])
		starts[i] = string(w.out) + ":"
	}
	return func(w *writer, v reflect.Value) error {
		w.out = append(w.out, '{')
		for i, e := range each {
			field, err := n.fieldValue(v, indices, i)
			if err != nil {
				return err
			}
			w.comma(i)
			w.out = append(w.out, starts[i]...)
			if err := w.value(e, field); err != nil {
				return under(err, n.names[i])
			}
		}
		w.out = append(w.out, '}')
		return n.rejectMore(v)
	}, nil
}

// fieldValue returns the value of a field, which a map must have.
func (n *node) fieldValue(v reflect.Value, indices []int, i int) (reflect.Value, error) {
	if v.Kind() == reflect.Struct {
		return v.Field(indices[i]), nil
	}
	field := v.MapIndex(reflect.ValueOf(n.names[i]).Convert(v.Type().Key()))
	if !field.IsValid() {
		return field, n.reject("needs the field %q", n.names[i])
	}
	return field, nil
}

// rejectMore rejects a map that has other members than the fields.
func (n *node) rejectMore(v reflect.Value) error {
	if v.Kind() == reflect.Struct || v.Len() == len(n.names) {
		return nil
	}
	for _, key := range v.MapKeys() {
		if n.indexOf(key.String()) == missing {
			return n.reject("has no field %q", key.String())
		}
	}
	return nil
}

// enum is runOf for enums: a Variant, or a struct in which one pointer isn't nil.
func (m encoders) enum(n *node, t reflect.Type) (encode, error) {
	if t == typeVariant {
		return func(w *writer, v reflect.Value) error {
			i := n.indexOf(v.Field(0).String())
			if i == missing {
				return n.reject("has no variant %q", v.Field(0).String())
			}
			return w.variant(n, i, func() error { return w.dynamic(n.parts[i], v.Field(1).Elem(), false) })
		}, nil
	}
	if !isPointers(t) {
		return nil, n.mismatch(t)
	}
	indices, err := n.fields(n.names, t, true)
	if err != nil {
		return nil, err
	}
	each := make([]*encoder, len(indices))
	for k, i := range indices {
		if i != missing {
			each[k] = m.part(n.parts[k], t.Field(i).Type.Elem(), n.names[k])
		}
	}
	return func(w *writer, v reflect.Value) error {
		k, err := n.chosen(indices, v)
		if err != nil {
			return err
		}
		return w.variant(n, k, func() error { return w.value(each[k], v.Field(indices[k]).Elem()) })
	}, nil
}

// chosen returns the only variant whose pointer isn't nil.
func (n *node) chosen(indices []int, v reflect.Value) (int, error) {
	found := missing
	for k, i := range indices {
		if i == missing || v.Field(i).IsNil() {
			continue
		}
		if found != missing {
			return 0, n.reject("is one variant, but %s has %s and %s", v.Type(), n.names[found], n.names[k])
		}
		found = k
	}
	if found == missing {
		return 0, n.reject("needs a variant, but all pointers of %s are nil", v.Type())
	}
	return found, nil
}

// variant writes a variant with its payload, which of a unit variant is left out.
func (w *writer) variant(n *node, i int, payload func() error) error {
	start := len(w.out)
	w.out = append(w.out, '{')
	w.text(n.names[i])
	w.out = append(w.out, ':')
	err := payload()
	if n.parts[i].kind == kindUnit {
		w.out = w.out[:start]
		w.text(n.names[i])
	} else {
		w.out = append(w.out, '}')
	}
	return under(err, n.names[i])
}
