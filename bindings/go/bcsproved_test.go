package bcsproved

import (
	"bytes"
	"encoding/hex"
	"errors"
	"fmt"
	"math"
	"os"
	"os/exec"
	"path/filepath"
	"runtime"
	"sort"
	"strings"
	"testing"
)

const shapes = `{"Point":{"STRUCT":[{"x":"U8"},{"~/":{"SEQ":"BYTES"}}]},
	"Shape":{"ENUM":{"0":{"Dot":"UNIT"},"2":{"Circle":{"NEWTYPE":"U64"}}}}}`

func open(t testing.TB, text string) *Registry {
	t.Helper()
	registry, err := Open([]byte(text))
	if err != nil {
		t.Fatal(err)
	}
	return registry
}

// example reads a file of examples/, in the folder that the variable BCS_EXAMPLES names.
func example(t testing.TB, name string) []byte {
	t.Helper()
	data, err := os.ReadFile(filepath.Join(os.Getenv("BCS_EXAMPLES"), name))
	if err != nil {
		t.Fatal(err)
	}
	return data
}

func unhex(t testing.TB, digits string) []byte {
	t.Helper()
	data, err := hex.DecodeString(strings.TrimSpace(digits))
	if err != nil {
		t.Fatal(err)
	}
	return data
}

func TestNames(t *testing.T) {
	for _, row := range []struct{ name, key string }{
		{"a\"b\\c\x00\x1fé", `a\"b\\c\u0000\u001fé`}, {"", ""}, {" {", " {"}, {strings.Repeat("\x01", 1000), strings.Repeat(`\u0001`, 1000)},
	} {
		registry := open(t, `{"`+row.key+`":{"STRUCT":[{"x":"U8"}]}}`)
		if data, err := registry.EncodeJSON(row.name, []byte(`{"x":1}`)); err != nil || !bytes.Equal(data, []byte{1}) {
			t.Errorf("%q: %x, %v", row.name, data, err)
		}
	}
}

// More refusals are rows of tests/rows.
func TestRefusals(t *testing.T) {
	registry, closed := open(t, shapes), open(t, shapes)
	closed.Close()
	_, tooNested := open(t, deep).DecodeJSON("C", deepData)
	_, noContainer := registry.Show("Nope", FormWays)
	for _, row := range []struct {
		err    error
		wanted Error
	}{
		{tooNested, Error{KindBytes, "TooNested", -1, "", ""}},
		{noContainer, Error{KindFormat, "UnknownName", -1, "", "no container is called Nope"}},
		{registry.Check("Circle"), Error{KindFormat, "UnknownName", -1, "", "no container is called Circle"}},
		{registry.Check("\xff"), Error{KindFormat, "NotJson", -1, "", ""}},
		{registry.WithLimits(Limits{501, 1}).Check("Point"), Error{KindLimits, "", -1, "", "the depth is above 500"}},
	} {
		var refused *Error
		if !errors.As(row.err, &refused) {
			t.Fatalf("%v instead of %v", row.err, &row.wanted)
		}
		if row.wanted.Message == "" { // not tested here
			row.wanted.Message = refused.Message
		}
		if *refused != row.wanted {
			t.Errorf("%#v instead of %#v", *refused, row.wanted)
		}
	}
	for _, err := range []error{closed.Check("Point"), closed.WithLimits(StandardLimits()).Check("Point")} {
		if err != ErrClosed {
			t.Error("a closed registry:", err)
		}
	}
	if err := closed.Close(); err != nil {
		t.Error(err)
	}
}

// Most refusals fit into the room that a call begins with.
func TestLongPlaces(t *testing.T) {
	for length := 190; length <= 260; length++ {
		name := strings.Repeat("a", length)
		if length == 260 {
			name = strings.Repeat(name, 300)
		}
		registry := open(t, `{"S":{"STRUCT":[{"`+name+`":"BOOL"}]}}`)
		var text, data *Error
		_, err := registry.EncodeJSON("S", []byte(`{"`+name+`":7}`))
		if !errors.As(err, &text) || text.At != "/"+name || text.Message == "" {
			t.Fatal(length, err)
		}
		_, err = registry.Scan("S", []byte{2})
		if !errors.As(err, &data) || data.At != "."+name || data.Message != "expected BOOL, 00 or 01, found 02" {
			t.Fatal(length, err)
		}
	}
}

// Five bytes encode a list of 4294967295 values that need no bytes.
func TestDefaultLimits(t *testing.T) {
	registry := open(t, "{}")
	units, format := []byte{0xff, 0xff, 0xff, 0xff, 0x07}, `{"SEQ":"UNIT"}`
	if os.Getenv("BCS_TEST_RACE") != "" {
		t.Skip("the race detector reserves terabytes; bindings/go/test.sh runs it without")
	}
	// Without a limit, decoding would take all memory, so the process has a limit of its own.
	if os.Getenv("BCS_TEST_LIMITS") == "" {
		command := exec.Command(os.Args[0], "-test.run=^TestDefaultLimits$", "-test.timeout=5m")
		command.Env = append(os.Environ(), "BCS_TEST_LIMITS=1")
		if told, err := command.CombinedOutput(); err != nil {
			t.Errorf("%v: %s", err, told)
		}
		return
	}
	limitMemory(t, 2<<30)
	for _, call := range []func() error{
		func() error { _, err := registry.Scan(format, units); return err },
		func() error { _, err := registry.Part(format, units, "."); return err },
		func() error { _, err := registry.DecodeJSON(format, units); return err },
		func() error { _, _, err := registry.DecodePrefixJSON(format, units); return err },
	} {
		var refused *Error
		if err := call(); !errors.As(err, &refused) || refused.Reason != "TooManyNodes" || refused.Kind != KindBytes {
			t.Fatal(err)
		}
	}
	explained, err := registry.Explain(format, units, FormJSON)
	if err != nil || explained.Damage == nil || explained.Damage.Reason != "TooManyNodes" {
		t.Error(explained, err)
	}
	if length, err := registry.WithLimits(Limits{500, math.MaxUint32}).Scan(format, []byte{0xfe, 0xff, 0xff, 0xff, 0x07}); length != 5 || err != nil {
		t.Error(length, err)
	}
	if StandardLimits() != (Limits{500, 4294967295}) {
		t.Error(StandardLimits())
	}
	// Values that share parts take little memory, and their JSON any amount. (Bytes are no nodes here.)
	lists, shared := open(t, `{"T":{"NEWTYPESTRUCT":{"SEQ":{"TYPENAME":"T"}}}}`), any([]any{})
	for i := 0; i < 40; i++ {
		shared = []any{shared, shared}
	}
	if _, err := lists.Encode("T", shared); !strings.Contains(fmt.Sprint(err), "has more nodes than the limits allow") {
		t.Error(err)
	}
	if _, err := registry.Encode(`{"SEQ":"U8"}`, make([]byte, defaultNodesOfValue+1)); err != nil {
		t.Error(err)
	}
	_, err = registry.WithLimits(Limits{0, 3}).EncodeJSON(format, []byte("[null,null,null]"))
	if !strings.HasPrefix(fmt.Sprint(err), "refused: TooManyNodes") {
		t.Error(err)
	}
}

// Three bytes announce 40,000 structs of 20 units each. What the default limits let through costs some tens of megabytes, however
// long the names are.
func TestCostOfFewBytes(t *testing.T) {
	format := `{"SEQ":{"TYPENAME":"S"}}`
	for _, length := range []int{1, 62, 63, 1000, 20_000} {
		var fields []string
		for i := 0; i < 20; i++ {
			fields = append(fields, fmt.Sprintf(`{"%s%02d":"UNIT"}`, strings.Repeat("n", length), i))
		}
		registry := open(t, `{"S":{"STRUCT":[`+strings.Join(fields, ",")+`]}}`)
		if _, err := registry.Decode(format, []byte{0xc0, 0xb8, 0x02}); expect(err, KindBytes, "TooManyNodes") != nil {
			t.Errorf("names of %d bytes: %v", length, err)
		}
		count := sort.Search(40_000, func(n int) bool { _, err := registry.Scan(format, uleb(n)); return err != nil }) - 1
		var before, after runtime.MemStats
		runtime.ReadMemStats(&before)
		value, err := registry.Decode(format, uleb(count))
		runtime.ReadMemStats(&after)
		if allocated := after.TotalAlloc - before.TotalAlloc; err != nil || len(value.([]any)) != count || allocated > 48<<20 {
			t.Errorf("names of %d bytes, %d structs: %d bytes, %v", length, count, allocated, err)
		}
		t.Logf("names of %d bytes, %d structs: %d bytes", length, count, after.TotalAlloc-before.TotalAlloc)
	}
}

// Lines begin with the same words in all languages, and names don't change how they look.
func TestLines(t *testing.T) {
	for _, row := range []struct {
		refused Error
		line    string
	}{
		{Error{KindBytes, "TooNested", -1, "", "100 levels"}, "refused: TooNested: 100 levels"},
		{Error{KindPath, "BadPath", -1, "", ""}, "refused: BadPath"},
		{Error{KindLimits, "", -1, "", "the depth is above 500"}, "refused: the depth is above 500"},
		{Error{KindText, "BadShape", -1, "/\n\x1b[2J\u202e'\"é\xff", "expected\n"}, `refused: BadShape at /\n\x1b[2J\u202e'"é` + "\ufffd" + `: expected\n`},
		{Error{KindText, "BadShape", -1, "/" + strings.Repeat("a", 1000), ""}, "refused: BadShape at /" + strings.Repeat("a", 199) + "...(cut)"},
	} {
		if line := row.refused.Error(); line != row.line {
			t.Errorf("%q, not %q", line, row.line)
		}
	}
}
