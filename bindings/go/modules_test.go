package bcsproved

import (
	"bytes"
	"errors"
	"sync"
	"testing"
)

// A line of tests/rows/modules.py can't have these types.
func TestTypesThatNoLineHas(t *testing.T) {
	for _, row := range []struct{ kind, at, message string }{
		{"\xff", "", "the types aren't UTF-8"},
		{"", "", `"" isn't a type`},
		{"u8\nu16", "u8\nu16", "a type has no line feed"},
		{"u8\n", "u8\n", "a type has no line feed"},
	} {
		made, err := RegistryOfModules([]byte("[]"), []string{"u8", row.kind})
		var refused *Error
		if wanted := (Error{KindModules, "BadType", -1, row.at, row.message}); !errors.As(err, &refused) || *refused != wanted || made != nil {
			t.Errorf("%q: %#v instead of %#v", row.kind, err, wanted)
		}
	}
	_, err := RegistryOfModules([]byte("[]"), []string{"a\nb"})
	if line := `refused: BadType at a\nb: a type has no line feed`; err.Error() != line {
		t.Error(err)
	}
}

// Goroutines make them side by side.
func TestRegistriesOfModulesInGoroutines(t *testing.T) {
	var group sync.WaitGroup
	for i := 0; i < 16; i++ {
		group.Add(1)
		go func() {
			defer group.Done()
			made, err := RegistryOfModules([]byte("[]"), []string{"vector<u8>"})
			if err != nil || !bytes.Equal(made.JSON, []byte(`{"vector<u8>":{"NEWTYPESTRUCT":"BYTES"}}`)) {
				t.Error(made, err)
			}
		}()
	}
	group.Wait()
}
