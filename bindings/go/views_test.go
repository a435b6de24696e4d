package bcsproved

import (
	"errors"
	"strings"
	"testing"
)

const noted = `{"Note":{"STRUCT":[{"memo":"BYTES"},{"args":{"SEQ":"BYTES"}}]},
	"f":{"STRUCT":[{"arg0":"U16"}]},"f::arg0":{"NEWTYPESTRUCT":"U16"},
	"Account":{"NEWTYPESTRUCT":{"TUPLEARRAY":{"CONTENT":"U8","SIZE":32}}}}`

// The first view counts of those whose names match. The rows of tests/rows/explain_views.rows have more.
func TestOrderOfViews(t *testing.T) {
	registry := open(t, noted)
	first, second := Inside{".args[*]", `"U8"`}, Inside{".args[0]", `"BOOL"`}
	for _, row := range []struct {
		bytes string
		views Views
		place int // of the damage
	}{
		{"00010107", Views{Inside: []Inside{first, second}}, -1},
		{"00010107", Views{Inside: []Inside{second, first}}, 3},
		// The value is damaged behind the byte string, too.
		{"000201070102", Views{Inside: []Inside{second}}, 3},
		{"00", Views{}, 1},
	} {
		explained, err := registry.ExplainWith("Note", unhex(t, row.bytes), FormWays, row.views)
		if err != nil || (explained.Damage != nil) != (row.place >= 0) || explained.Damage != nil && explained.Damage.Place != row.place {
			t.Errorf("%v: %v, %v", row.views, explained, err)
		}
	}
}

// The rows of tests/rows/explain_views.rows have more.
func TestCalls(t *testing.T) {
	registry := open(t, noted)
	note := "note: at --call, .x: no list there\n"
	explained, err := registry.ExplainWith("Note", []byte{0, 0}, FormWays, Views{Calls: []Call{{".x", "f"}}})
	if err != nil || explained.Damage != nil || !strings.HasSuffix(explained.Text, note) {
		t.Errorf("%v, %v", explained, err)
	}
	explained, err = registry.ExplainWith(`{"SEQ":"U16"}`, []byte{0}, FormWays, Views{Calls: []Call{{".", "f"}}})
	if err != nil || explained.Damage == nil || explained.Damage.Reason != "BadPath" || explained.Damage.Kind != KindBytes {
		t.Errorf("%v, %v", explained, err)
	}
}

func TestRefusedViews(t *testing.T) {
	registry := open(t, noted)
	for _, row := range []struct {
		views Views
		kind  Kind
		at    string
		words string
	}{
		{Views{Inside: []Inside{{".memo", "f"}}, Calls: []Call{{"", "f"}}}, KindPath, "", "call: expected a name"},
		{Views{Inside: []Inside{{".a=b", "f"}}}, KindPath, ".a=b", "inside: expected a name"},
		{Views{Inside: []Inside{{`."a`, "f"}}}, KindPath, `."a`, "inside: expected a name"},
		{Views{Calls: []Call{{".args\n", "f"}}}, KindPath, ".args\n", "call: a line feed"},
		{Views{U256s: []string{"A\nB"}}, KindPath, "A\nB", "u256: a line feed"},
		{Views{Inside: []Inside{{".memo", "Nope"}}}, KindFormat, "", "inside .memo: no container is called Nope"},
		{Views{Inside: []Inside{{".memo", `{"SEQ":"U7"}`}}}, KindFormat, "/SEQ", "inside .memo: expected a format"},
		{Views{Calls: []Call{{".args", "f"}, {".args", "g"}}}, KindFormat, "", "call .args: the registry has no arguments of this function"},
		{Views{Addresses: []string{"Account", "f"}}, KindFormat, "", "address f: the registry has no newtype of 32 bytes with this name"},
		{Views{I256s: []string{""}}, KindFormat, "", "i256 : the registry has no newtype"},
	} {
		_, err := registry.ExplainWith("Note", []byte{0, 0}, FormJSON, row.views)
		var refused *Error
		if !errors.As(err, &refused) || refused.Kind != row.kind || refused.At != row.at || !strings.HasPrefix(refused.Message, row.words) {
			t.Errorf("%v: %#v", row.views, err)
		}
	}
	closed := open(t, noted)
	closed.Close()
	if _, err := closed.ExplainWith("Note", nil, FormWays, Views{}); err != ErrClosed {
		t.Error(err)
	}
	if _, err := closed.Content("Note", nil, "."); err != ErrClosed {
		t.Error(err)
	}
}

func TestNoContent(t *testing.T) {
	_, err := open(t, noted).Content("Note", []byte{1, 7, 0, 9}, "inner/1")
	wanted := Error{KindPath, "NoContent", -1, "", "expected a part that is BYTES, STR, or a list or an array of U8"}
	var refused *Error
	if !errors.As(err, &refused) || *refused != wanted {
		t.Errorf("%#v, and not %#v", err, wanted)
	}
}
