//go:build bcs_generated

// Package generated has the types that bcs_proved.go_types writes for a registry; declared.py adds them, and the variables.
package generated

import (
	"bufio"
	"bytes"
	"encoding/hex"
	"encoding/json"
	"errors"
	"os"
	"reflect"
	"testing"

	"fodrascu.example/bcsproved"
)

type vector struct {
	Format, Bytes, Refused string
	JSON                   json.RawMessage
}

// name returns the name of the container that the format is.
func (v vector) name() string {
	var format struct{ TYPENAME *string }
	if json.Unmarshal([]byte(v.Format), &format) == nil && format.TYPENAME != nil {
		return *format.TYPENAME
	}
	return v.Format
}

// Each test vector is a value of its container's type, with the same bytes again, or is refused for the same reason.
func TestVectors(t *testing.T) {
	text, err := os.ReadFile("registry.json")
	if err != nil {
		t.Fatal(err)
	}
	registry, err := bcsproved.Open(text, names...)
	if err != nil {
		t.Fatal(err)
	}
	vectors, err := os.Open("vectors")
	if err != nil {
		t.Fatal(err)
	}
	lines := bufio.NewScanner(vectors)
	lines.Buffer(nil, 1<<24)
	values := 0
	for lines.Scan() {
		var v vector
		if err := json.Unmarshal(lines.Bytes(), &v); err != nil {
			t.Fatal(err)
		}
		if check(t, registry, v) {
			values++
		}
	}
	if lines.Err() != nil || values < wantedValues {
		t.Errorf("only %d values, not %d: %v", values, wantedValues, lines.Err())
	}
}

// check returns whether the vector is a value.
func check(t *testing.T, registry *bcsproved.Registry, v vector) bool {
	data, err := hex.DecodeString(v.Bytes)
	if err != nil || variables[v.name()] == nil {
		t.Fatalf("%q: %v", v.Format, err)
	}
	variable := variables[v.name()]()
	err = registry.Unmarshal(v.Format, data, variable)
	if v.Refused != "" || err != nil {
		var refused *bcsproved.Error
		isAsVector := errors.As(err, &refused) && refused.Kind == bcsproved.KindBytes && refused.Reason == v.Refused
		// Without JSON, a vector may be too deep for values, too.
		if !isAsVector && !(v.Refused == "" && v.JSON == nil && refused != nil && refused.Reason == "TooNested") {
			t.Errorf("%q: %x: %v, not %q", v.Format, data, err, v.Refused)
		}
		return false
	}
	value := reflect.ValueOf(variable).Elem().Interface()
	if err := registry.CheckType(v.Format, value); err != nil {
		t.Errorf("%q: %v", v.Format, err)
	}
	if again, err := registry.Encode(v.Format, value); err != nil || !bytes.Equal(again, data) {
		t.Errorf("%q: %x became %+v, and that %x: %v", v.Format, data, value, again, err)
	}
	return true
}
