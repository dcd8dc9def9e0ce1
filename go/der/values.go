package der

// #include <barleypulley/der.h>
import "C"

import "time"

// UnsignedInteger reads all octets as an INTEGER from 0 to 18446744073709551615.
func UnsignedInteger(encoding []byte) (uint64, error) {
	var read reading[C.uint64_t]
	address, count := first(encoding)
	err := answered(C.der_unsigned_integer(address, count, &read.it, &read.fault), &read.fault)
	return uint64(read.it), err
}

// Time reads all octets as a time (Time, RFC 5280 4.1.2.5): a UTCTime, or a GeneralizedTime without a fraction of a second.
func Time(encoding []byte) (time.Time, error) {
	var read reading[C.uint64_t]
	address, count := first(encoding)
	err := answered(C.der_time(address, count, &read.it, &read.fault), &read.fault)
	return seconds(read.it), err
}

// FractionalTime reads all octets as a GeneralizedTime that may have a fraction of a second, and returns the time without
// the fraction.
func FractionalTime(encoding []byte) (time.Time, error) {
	var read reading[C.uint64_t]
	address, count := first(encoding)
	err := answered(C.der_fractional_time(address, count, &read.it, &read.fault), &read.fault)
	return seconds(read.it), err
}

// NamedBits reads all octets as a BIT STRING with named bits, such as a KeyUsage, and returns the bits 0 to 15: bit 0 as 1,
// bit 1 as 2, bit 2 as 4, and so on.
func NamedBits(encoding []byte) (uint16, error) {
	var read reading[C.uint32_t]
	address, count := first(encoding)
	err := answered(C.der_named_bits(address, count, &read.it, &read.fault), &read.fault)
	return uint16(read.it), err
}

// NameKind is the kind of a GeneralName (RFC 5280 4.2.1.6).
type NameKind uint32

// The kinds, with the numbers of their tags.
const (
	OtherName NameKind = iota
	RFC822Name
	DNSName
	X400Address
	DirectoryName
	EDIPartyName
	URI
	IPAddress
	RegisteredID
)

// GeneralName reads all octets as a GeneralName (RFC 5280 4.2.1.6). It returns the kind, and the contents octets of the
// value; of a directory name the encoding of a Name.
func GeneralName(encoding []byte) (NameKind, []byte, error) {
	var read reading[C.uint32_t]
	address, count := first(encoding)
	if err := answered(C.der_general_name(address, count, &read.it, &read.fault), &read.fault); err != nil {
		return 0, nil, err
	}
	return NameKind(read.it), Contents(encoding), nil
}

// Encodings returns the encodings in the contents octets of a list, such as the names of a subjectAltName. If the octets are
// no list, there are fewer.
func Encodings(list []byte) [][]byte {
	var found [][]byte
	for left := Contents(list); ; {
		one := firstEncoding(left)
		if len(one) == 0 {
			return found
		}
		found = append(found, one)
		left = left[len(one):]
	}
}
