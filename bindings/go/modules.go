package bcsproved

// #include "bcs.h"
import "C"

import (
	"bytes"
	"strings"
)

// MadeRegistry is a registry that was made from modules of a Move chain.
type MadeRegistry struct {
	JSON  []byte // the registry, as Open reads it
	Notes string // what a reader of the registry has to know, for people: for instance that a type has another name there
}

// RegistryOfModules returns the registry for types of a Move chain, as `bcs from-move` prints it. The modules are the JSON that a
// node of Aptos or Sui returns for a module, or an array of such answers. Each text of types is a type, or a function, whose
// arguments have containers of their own: 0x1::coin::transfer<..>::arg0 and so on. The kind of a refusal is KindModules.
func RegistryOfModules(modules []byte, types []string) (*MadeRegistry, error) {
	if !isSupported {
		return nil, ErrUnsupported
	}
	lines, err := linesOf(types)
	if err != nil {
		return nil, err
	}
	q := new(question)
	out, answer := q.output(plain(C.BCS_REGISTRY_OF_MODULES, modules, lines), 4096)
	if err := q.refusal(answer, KindModules); err != nil {
		return nil, err
	}
	json, notes, _ := bytes.Cut(out, []byte{'\n'}) // the JSON has no line feed
	return &MadeRegistry{json[:len(json):len(json)], string(notes)}, nil
}

// linesOf returns the types with a line feed between each two, as C takes them. C would skip an empty one.
func linesOf(types []string) ([]byte, error) {
	for _, text := range types {
		switch {
		case text == "":
			return nil, badType(text, `"" isn't a type`)
		case strings.Contains(text, "\n"):
			return nil, badType(text, "a type has no line feed")
		}
	}
	return []byte(strings.Join(types, "\n")), nil
}

func badType(text, message string) error {
	refused := newError(KindModules, C.BCS_MOVE_BAD_TYPE)
	refused.At, refused.Message = text, message
	return refused
}
