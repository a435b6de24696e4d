package bcsproved

// #include "bcs.h"
import "C"

import "strings"

// Views say what ExplainWith shows of a value in addition: the pieces inside of byte strings, and Move's numbers. Names are those that
// [Registry.Explain] prints; [*] in a name stands for each index, such as [0]. Containers called address, u256 and i256 are shown as
// Move's without views.
type Views struct {
	Inside    []Inside
	Calls     []Call
	Addresses []string // containers, newtypes of 32 U8, that are shown as 0x..
	U256s     []string // those that are shown as unsigned numbers
	I256s     []string // and as signed ones
}

// Inside explains the byte string with this name piece by piece, as a value of this format.
type Inside struct{ Name, Format string }

// Call explains the elements of the list with this name as the arguments of a function, in a registry that [RegistryOfModules] made
// for it. An empty Function is the one that is called.
type Call struct{ Name, Function string }

// ExplainWith is Explain with views. Bytes in a byte string that aren't exactly one value are damage, at their place in data. So is a list
// that isn't one of byte strings (BadPath), or whose function isn't the one that is called (OtherFunction); the last line has both names.
// A line of the text, or in JSON an object before the last one, notes each name that matches nothing, and each function that wasn't compared.
func (r *Registry) ExplainWith(format string, data []byte, form Form, views Views) (*Explanation, error) {
	all := views.all()
	lines, err := linesOfViews(all)
	if err != nil {
		return nil, err
	}
	q, err := r.askAbout(format, data)
	if err != nil {
		return nil, err
	}
	defer q.end()
	out, answer := q.output(q.explains(data, C.uint32_t(form)+C.BCS_NOTES, lines), guess(len(data), 64))
	if answer.status == C.BCS_PATH || answer.status == C.BCS_FORMAT {
		return nil, q.refusalOfViews(answer.fault, all)
	}
	return q.explanation(out, answer, data)
}

// refusalOfViews returns the error for the format of the value, if it is refused, or else for the first view that is refused.
func (q *question) refusalOfViews(fault C.uint32_t, views []view) error {
	err := q.refusalOfFormat(fault, q.format)
	if refused, is := err.(*Error); !is || refused.Message != "" {
		return err
	}
	for _, v := range views {
		alone := q.ask(q.explains(nil, C.BCS_JSON, []byte(v.line())), nil)
		switch alone.status {
		case C.BCS_PATH:
			return badView(v.name, v.word+": expected a name such as .payload.args[1]")
		case C.BCS_FORMAT:
			return q.refusalOfView(alone.fault, v)
		}
	}
	return newError(KindFormat, fault)
}

// refusalOfView returns the error for a view whose format, function or container isn't in the registry.
func (q *question) refusalOfView(fault C.uint32_t, v view) error {
	err := q.refusalOfFormat(fault, v.format)
	if refused, is := err.(*Error); is {
		if v.format == nil {
			refused.Message = v.missing
		}
		refused.Message = v.word + " " + v.name + ": " + refused.Message
	}
	return err
}

// view is one of the views, as C takes it.
type view struct {
	word, name, rest string
	format           []byte // of a byte string
	missing          string // what is wrong if it is refused and has no format
}

func (v view) line() string {
	return v.word + " " + v.name + v.rest
}

func (v Views) all() []view {
	var all []view
	for _, inside := range v.Inside {
		format := formatJSON(inside.Format)
		all = append(all, view{"inside", inside.Name, "=" + string(format), format, ""})
	}
	for _, call := range v.Calls {
		all = append(all, view{"call", call.Name, "=" + call.Function, nil, "the registry has no arguments of this function"})
	}
	for _, of := range []struct {
		word  string
		names []string
	}{{"address", v.Addresses}, {"u256", v.U256s}, {"i256", v.I256s}} {
		for _, container := range of.names {
			all = append(all, view{of.word, container, "", nil, "the registry has no newtype of 32 bytes with this name"})
		}
	}
	return all
}

// linesOfViews returns the views, a line for each, as C takes them.
func linesOfViews(views []view) ([]byte, error) {
	var lines []string
	for _, v := range views {
		switch {
		case strings.Contains(v.name+v.rest, "\n"):
			return nil, badView(v.name, v.word+": a line feed, which no view may have")
		case v.rest != "" && !endsOutsideQuotes(v.name):
			return nil, badView(v.name, v.word+": expected a name such as .payload.args[1]")
		}
		lines = append(lines, v.line())
	}
	return []byte(strings.Join(lines, "\n")), nil
}

// endsOutsideQuotes reports whether a = behind the name ends it, since the name has none outside quotes.
func endsOutsideQuotes(name string) bool {
	isQuoted, isEscaped := false, false
	for _, sign := range name {
		switch {
		case isEscaped:
			isEscaped = false
		case sign == '\\' && isQuoted:
			isEscaped = true
		case sign == '"':
			isQuoted = !isQuoted
		case sign == '=' && !isQuoted:
			return false
		}
	}
	return !isQuoted
}

func badView(name, message string) error {
	refused := badPath(C.BCS_PATH_BAD_PATH, message)
	refused.At = name
	return refused
}
