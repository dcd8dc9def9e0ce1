package der

// #include <barleypulley/der.h>
import "C"

import (
	"bytes"
	"fmt"
	"math"
	"sort"
	"time"
)

// Writer writes messages, each from its fields, and values, which are fields or parts of fields. Each method returns an
// encoding. If a part is refused the method returns nil, and so do all later ones: Err says why. A Writer is ready for use
// without any preparation.
//
// A field is an encoding with its tag, as reading returns it; a list is given as its items. Each field is read by the grammar
// of its type before anything is written.
type Writer struct {
	err error
}

// Err returns the first refusal, with the name of the method: an *Error by errors.As.
func (w *Writer) Err() error { return w.err }

// refuse keeps the first refusal.
func (w *Writer) refuse(name string, err error) {
	if w.err == nil && err != nil {
		w.err = fmt.Errorf("%s: %w", name, err)
	}
}

// target is where a call in C writes.
type target struct {
	buffer  []byte
	written C.size_t
	fault   C.der_fault
}

// written returns what a call in C writes, which is asked first how many octets that is.
func (w *Writer) written(name string, octets []byte, call func(octets []byte, to *target) C.uint32_t) []byte {
	if w.err != nil {
		return nil
	}
	var to target
	number := call(octets, &to)
	if number == C.DER_SHORT_BUFFER {
		to.buffer = make([]byte, to.written)
		number = call(octets, &to)
	}
	if err := answered(number, &to.fault); err != nil {
		w.refuse(name, err)
		return nil
	}
	return to.buffer[:to.written]
}

// parts has the fields of a message, one after another.
type parts struct {
	octets []byte
}

// field puts a field here; one of no octets is absent.
func (p *parts) field(octets []byte) C.der_place {
	if len(octets) == 0 {
		return C.der_place{}
	}
	offset := len(p.octets)
	p.octets = append(p.octets, octets...)
	if uint64(len(p.octets)) > math.MaxUint32 {
		// (the call refuses so many octets)
		return C.der_place{}
	}
	return C.der_place{offset: C.uint32_t(offset), length: C.uint32_t(len(octets))}
}

// items puts items here, one after another, within encodings with these identifier octets.
func (w *Writer) items(to *parts, items [][]byte, identifiers ...byte) C.der_place {
	within := bytes.Join(items, nil)
	for _, identifier := range identifiers {
		within = w.Encoding(identifier, within)
	}
	return to.field(within)
}

// optionalItems puts items here, if there are any.
func (w *Writer) optionalItems(to *parts, items [][]byte, identifiers ...byte) C.der_place {
	if len(items) == 0 {
		return C.der_place{}
	}
	return w.items(to, items, identifiers...)
}

// set puts items here in the order of DER (X.690 11.6).
func (w *Writer) set(to *parts, items [][]byte, identifiers ...byte) C.der_place {
	return w.items(to, inOrder(items), identifiers...)
}

// inOrder returns encodings in the order of DER.
func inOrder(items [][]byte) [][]byte {
	ordered := append([][]byte(nil), items...)
	sort.Slice(ordered, func(i, j int) bool { return string(ordered[i]) < string(ordered[j]) })
	return ordered
}

// moment is a date as the calls take it; one before 1970 is refused as too late.
func moment(date time.Time) C.uint64_t { return C.uint64_t(date.Unix()) }

// optionalMoment is a date that may be absent, which is 0; the first second of 1970, which would stand for that, is refused.
func optionalMoment(date time.Time) C.uint64_t {
	if date.IsZero() {
		return 0
	}
	if date.Unix() == 0 {
		return math.MaxUint64
	}
	return moment(date)
}

func flag(is bool) C.uint32_t {
	if is {
		return 1
	}
	return 0
}
