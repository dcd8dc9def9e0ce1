package der

// #include <barleypulley/der.h>
import "C"

// Canonical gives the one encoding of the value that all of the octets are, as the type with a name: those of "certview lines",
// as cert, and of derview, as i64. It is a copy of the octets, but of the types of sets that are read in another order than
// DER's, and written in order. The number of the error is 102 where no type has the name.
func Canonical(name string, octets []byte) ([]byte, error) {
	var fault C.der_fault
	var written C.size_t
	room := make([]byte, len(octets))
	text, nameCount := first([]byte(name))
	address, count := first(octets)
	roomAddress, roomCount := first(room)
	number := C.der_canonical(text, nameCount, address, count, roomAddress, roomCount, &written, &fault)
	if err := answered(number, &fault); err != nil {
		return nil, err
	}
	return room[:written], nil
}
