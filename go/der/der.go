// Package der reads DER of certificates, lists of revoked certificates, keys, requests, answers about the status of
// certificates and signed messages by proved code: which octets are taken, and where each field stands.
//
// A value keeps the octets that it was read from, and a field is a slice of them: its whole encoding. Nothing of them is copied,
// and no signature is verified: CheckPath validates a chain of certificates, and returns what has to verify. A Writer writes
// messages from their fields. The code that reads and writes is Barleypulley's der_c; this package, which calls it, is not proved.
//
// Octets that are refused return an *Error: the number of the first fault, and where it was met. A date before 1970 is refused
// (13). No pointer to the octets outlives a call into C.
package der

/*
#cgo CFLAGS: -I${SRCDIR}/../../c/include
#cgo LDFLAGS: -L${SRCDIR}/../../c/build -l:libder_c.a
#include <barleypulley/der.h>
*/
import "C"

import (
	"fmt"
	"time"
	"unsafe"
)

// A library with another version of its interface is refused when the program starts.
func init() {
	if version := C.der_abi_version(); version != C.DER_ABI_VERSION {
		panic(fmt.Sprintf("der: libder_c has version %d of its interface, and package der is for version %d", version, C.DER_ABI_VERSION))
	}
}

// Error says why octets are refused.
type Error struct {
	// Number is that of the kind, which never changes its meaning: 1 to 17 of octets, 100 and more of a call.
	Number uint32
	// IsPlaced says whether the position is known.
	IsPlaced bool
	// Position is how many octets had been read. Of an extension or an entry they count from its first octet.
	Position uint32
}

// Words says what the number stands for.
func (e *Error) Words() string {
	return C.GoString(C.der_number_text(C.uint32_t(e.Number)))
}

// Error gives the words, the number and the position.
func (e *Error) Error() string {
	if !e.IsPlaced {
		return fmt.Sprintf("der: %s (%d)", e.Words(), e.Number)
	}
	return fmt.Sprintf("der: %s (%d), after %d octets", e.Words(), e.Number, e.Position)
}

// reading is a message that is read, and the fault for which it may be refused, in one piece of memory.
type reading[T any] struct {
	it    T
	fault C.der_fault
}

// answered is what a call answered: no error, or the fault that it wrote.
func answered(number C.uint32_t, fault *C.der_fault) error {
	if number == 0 {
		return nil
	}
	return &Error{uint32(fault.number), fault.is_placed == 1, uint32(fault.position)}
}

// first is the address of octets, and their number; of none it is no address.
func first(octets []byte) (*C.uint8_t, C.size_t) {
	if len(octets) == 0 {
		return nil, 0
	}
	return (*C.uint8_t)(unsafe.Pointer(&octets[0])), C.size_t(len(octets))
}

// at gives the octets at a place, with no room behind them; of an absent field it gives nil.
func at(octets []byte, place C.der_place) []byte {
	if place.length == 0 {
		return nil
	}
	end := uint64(place.offset) + uint64(place.length)
	return octets[place.offset:end:end]
}

// seconds is a date in UTC, of the seconds from 1970-01-01T00:00:00Z.
func seconds(count C.uint64_t) time.Time {
	return time.Unix(int64(count), 0).UTC()
}

// header finds the end of the identifier and length octets at the front of octets, and the end of the contents octets behind
// them (X.690 8.1.1); 0 and 0 if the octets have no encoding there. It calls no C, which takes longer than this.
func header(octets []byte) (start, end int) {
	at := 1
	if len(octets) > 0 && octets[0]&0x1f == 0x1f {
		for at < len(octets) && octets[at] >= 0x80 {
			at++
		}
		at++
	}
	if at >= len(octets) {
		return 0, 0
	}
	length := int64(octets[at])
	at++
	if length >= 0x80 {
		count := int(length - 0x80)
		if count == 0 || count > 4 || count > len(octets)-at {
			return 0, 0
		}
		length = 0
		for _, octet := range octets[at : at+count] {
			length = length<<8 | int64(octet)
		}
		at += count
	}
	if length > int64(len(octets)-at) {
		return 0, 0
	}
	return at, at + int(length)
}

// Contents gives the contents octets of an encoding that was read, as a field of a certificate: 05 of 02 01 05. Of other
// octets the answer is some of them.
func Contents(encoding []byte) []byte {
	start, end := header(encoding)
	if start == end {
		return nil
	}
	return encoding[start:end:end]
}

// SignedOctets gives the octets that the signature of a certificate covers, of a list of revoked ones, of a request or of an
// answer about the status of certificates: the first field. Of other octets the answer is some of them.
func SignedOctets(message []byte) []byte {
	octets, count := first(message)
	return at(message, C.der_signed_octets(octets, count))
}
