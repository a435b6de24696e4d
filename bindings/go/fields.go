package bcsproved

import (
	"encoding"
	"encoding/json"
	"math/big"
	"reflect"
	"strings"
)

var (
	typeVariant = reflect.TypeOf(Variant{})
	typeSome    = reflect.TypeOf(Some{})
	typeHex     = reflect.TypeOf(Hex(""))
	typeBig     = reflect.TypeOf(big.Int{})
	typeAny     = reflect.TypeOf((*any)(nil)).Elem()
	typeUnit    = reflect.TypeOf(struct{}{})
	ofJSON      = []reflect.Type{reflect.TypeOf(json.Number("")), reflect.TypeOf(json.RawMessage{})}
	marshalers  = []reflect.Type{reflect.TypeOf((*json.Marshaler)(nil)).Elem(), reflect.TypeOf((*encoding.TextMarshaler)(nil)).Elem()}
)

// rejectNoValue rejects types that never stand for a format: JSON, and interfaces except any.
func (n *node) rejectNoValue(t reflect.Type) error {
	for _, door := range ofJSON {
		if t == door {
			return n.reject("takes no %s: pass it to EncodeJSON", t)
		}
	}
	if t.Kind() == reflect.Interface && t != typeAny {
		return n.reject("takes no interface except any, not %s", t)
	}
	return nil
}

// isInteger is whether values of this type are integers and nothing else: a type that writes itself as text may mean something.
func isInteger(t reflect.Type) bool {
	if t.Kind() < reflect.Int || t.Kind() > reflect.Uint64 {
		return false
	}
	for _, marshaler := range marshalers {
		if t.Implements(marshaler) || reflect.PointerTo(t).Implements(marshaler) {
			return false
		}
	}
	return true
}

// isBytes is whether values of this type are bytes: []byte, [N]byte and types made of them.
func isBytes(t reflect.Type) bool {
	return isSequence(t) && t.Elem().Kind() == reflect.Uint8 && isInteger(t.Elem())
}

func isSequence(t reflect.Type) bool { return t.Kind() == reflect.Slice || t.Kind() == reflect.Array }

// isPlainStruct is whether the fields of this struct are those of a struct, a tuple or an enum.
func isPlainStruct(t reflect.Type) bool {
	return t.Kind() == reflect.Struct && t != typeVariant && t != typeSome && t != typeBig
}

func isStringMap(t reflect.Type) bool {
	return t.Kind() == reflect.Map && t.Key().Kind() == reflect.String && t.Key() != typeHex
}

func isEntry(t reflect.Type) bool {
	return t.Kind() == reflect.Struct && t.NumField() == 2 && isField(t.Field(0), "Key") && isField(t.Field(1), "Value")
}

func isField(field reflect.StructField, name string) bool {
	return field.Name == name && !field.Anonymous
}

// contains is whether a value of this type has a part of that kind in itself, and not behind a pointer.
func contains(t reflect.Type, kind reflect.Kind) bool {
	switch t.Kind() {
	case kind:
		return true
	case reflect.Array:
		return contains(t.Elem(), kind)
	case reflect.Struct:
		for i := 0; i < t.NumField(); i++ {
			if contains(t.Field(i).Type, kind) {
				return true
			}
		}
	}
	return false
}

// isPointers is whether each field of the struct is a pointer, as of a struct that stands for an enum.
func isPointers(t reflect.Type) bool {
	if !isPlainStruct(t) || t.NumField() == 0 {
		return false
	}
	for i := 0; i < t.NumField(); i++ {
		if t.Field(i).Type.Kind() != reflect.Pointer && t.Field(i).Tag.Get("bcs") != "-" {
			return false
		}
	}
	return true
}

// missing is the index of a name without a field.
const missing = -1

// fields returns the index of the struct's field for each name: the one whose tag it is, or which has no tag and differs only
// in case and underscores. Each field needs a name; and each name a field, unless the struct may be partial.
func (n *node) fields(names []string, t reflect.Type, mayBePartial bool) ([]int, error) {
	indices := make([]int, len(names))
	for i := range indices {
		indices[i] = missing
	}
	for i := 0; i < t.NumField(); i++ {
		if t.Field(i).Tag.Get("bcs") == "-" {
			continue
		}
		k, err := n.nameOf(names, t, t.Field(i))
		if err != nil {
			return nil, err
		}
		if indices[k] != missing {
			return nil, n.reject("has one name for two fields of %s: %s", t, names[k])
		}
		indices[k] = i
	}
	for k, i := range indices {
		if i == missing && !mayBePartial {
			return nil, n.reject("needs a field for %q in %s", names[k], t)
		}
	}
	return indices, nil
}

// nameOf returns the index of the name that belongs to a field.
func (n *node) nameOf(names []string, t reflect.Type, field reflect.StructField) (int, error) {
	if field.Anonymous {
		return 0, n.reject("takes no embedded field: %s.%s", t, field.Name)
	}
	if !field.IsExported() {
		return 0, n.reject("takes no unexported field: %s.%s", t, field.Name)
	}
	tag, isTagged := field.Tag.Lookup("bcs")
	found := missing
	for k, name := range names {
		if isTagged && name == tag || !isTagged && plainName(name) == plainName(field.Name) {
			if found != missing {
				return 0, n.reject("has two names for %s.%s: it needs a tag", t, field.Name)
			}
			found = k
		}
	}
	if found == missing {
		return 0, n.reject("has no name for the field %s.%s", t, field.Name)
	}
	return found, nil
}

func plainName(name string) string { return strings.ToLower(strings.ReplaceAll(name, "_", "")) }
