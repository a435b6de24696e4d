package bcsproved

import (
	"fmt"
	"reflect"
	"strings"
)

// pair is what a converter is made for.
type pair struct {
	n *node
	t reflect.Type
}

// converter converts values between a format and one Go type. Those of types that contain themselves form cycles.
type converter[run any] struct {
	n   *node
	run run
}

// converters are those of one direction that a registry has made, and what was wrong with others.
type converters[run any] struct {
	made  map[pair]*converter[run]
	wrong map[pair]error
}

func newConverters[run any]() converters[run] {
	return converters[run]{map[pair]*converter[run]{}, map[pair]error{}}
}

// maker makes a converter with all that it needs. Formats may form chains of any length, so they wait in a list and not on the
// stack.
type maker[run any] struct {
	known   map[pair]*converter[run] // made before
	made    map[pair]*converter[run]
	waiting []waiting[run]
}

type waiting[run any] struct {
	pair
	at *steps
	c  *converter[run]
}

// how returns how values of a pair are converted. The steps lead to the pair's place.
type how[run any] func(m *maker[run], key pair, at *steps) (run, error)

// of returns the converter for a pair.
func (all converters[run]) of(key pair, how how[run]) (*converter[run], error) {
	if err := all.wrong[key]; err != nil {
		return nil, err
	}
	if c := all.made[key]; c != nil {
		return c, nil
	}
	m := &maker[run]{known: all.made, made: map[pair]*converter[run]{}}
	wanted := m.of(key.n, key.t, nil)
	if err := m.finish(how); err != nil {
		all.wrong[key] = err
		return nil, err
	}
	for key, c := range m.made {
		all.made[key] = c
	}
	return wanted, nil
}

// of returns a converter, which may be waiting to be finished.
func (m *maker[run]) of(n *node, t reflect.Type, at *steps) *converter[run] {
	key := pair{n, t}
	if c := m.known[key]; c != nil {
		return c
	}
	c := m.made[key]
	if c == nil {
		c = &converter[run]{n: n}
		m.made[key] = c
		m.waiting = append(m.waiting, waiting[run]{key, at, c})
	}
	return c
}

// finish makes what is waiting, and what that needs.
func (m *maker[run]) finish(how how[run]) error {
	for len(m.waiting) > 0 {
		next := m.waiting[0]
		m.waiting = m.waiting[1:]
		var err error
		if next.c.run, err = how(m, next.pair, next.at); err != nil {
			return next.at.lead(err)
		}
	}
	return nil
}

// steps are those of a JSON Pointer, the last one first. "-" is each element of a list.
type steps struct {
	last   any
	before *steps
}

// then adds steps.
func (at *steps) then(more ...any) *steps {
	for _, step := range more {
		at = &steps{step, at}
	}
	return at
}

// lead puts the steps before the pointer of an error.
func (at *steps) lead(err error) error {
	var all []any
	for ; at != nil; at = at.before {
		all = append(all, at.last)
	}
	for i, j := 0, len(all)-1; i < j; i, j = i+1, j-1 {
		all[i], all[j] = all[j], all[i]
	}
	return under(err, all...)
}

var escapeStep = strings.NewReplacer("~", "~0", "/", "~1")

// under puts steps before the JSON Pointer of an error.
func under(err error, all ...any) error {
	rejected, is := err.(*Error)
	if !is || rejected == nil {
		return err
	}
	var pointer strings.Builder
	for _, step := range all {
		pointer.WriteString("/" + escapeStep.Replace(fmt.Sprint(step)))
	}
	moved := *rejected
	moved.At = pointer.String() + rejected.At
	return &moved
}
