package der

// #include <barleypulley/der.h>
import "C"

import (
	"bytes"
	"math/bits"
	"strconv"
	"strings"
	"time"
)

// ocspBasic is id-pkix-ocsp-basic (RFC 6960 4.2.1).
const ocspBasic = "1.3.6.1.5.5.7.48.1.1"

// Encoding writes an encoding with an identifier octet and these contents octets, which are not read.
func (w *Writer) Encoding(identifier byte, contents []byte) []byte {
	return w.written("Encoding", contents, func(octets []byte, to *target) C.uint32_t {
		address, count := first(octets)
		buffer, size := first(to.buffer)
		return C.der_write_encoding(C.uint32_t(identifier), address, count, buffer, size, &to.written, &to.fault)
	})
}

// within writes an encoding of encodings.
func (w *Writer) within(identifier byte, items [][]byte) []byte {
	return w.Encoding(identifier, bytes.Join(items, nil))
}

// Sequence writes a SEQUENCE, or a SEQUENCE OF, of these encodings.
func (w *Writer) Sequence(items ...[]byte) []byte { return w.within(0x30, items) }

// SetOf writes a SET OF these encodings, in the order of DER.
func (w *Writer) SetOf(items ...[]byte) []byte { return w.within(0x31, inOrder(items)) }

// tagged writes an encoding with a context-specific tag.
func (w *Writer) tagged(name string, first byte, number int, contents []byte) []byte {
	if number < 0 || number > 30 {
		w.refuse(name, &Error{Number: C.DER_TAG_NUMBER_INVALID})
		return nil
	}
	return w.Encoding(first+byte(number), contents)
}

// Explicit writes an encoding with the explicit tag [number] around it, up to 30.
func (w *Writer) Explicit(number int, encoding []byte) []byte {
	return w.tagged("Explicit", 0xa0, number, encoding)
}

// Implicit writes contents octets that are no encodings with the implicit tag [number], up to 30.
func (w *Writer) Implicit(number int, contents []byte) []byte {
	return w.tagged("Implicit", 0x80, number, contents)
}

// ImplicitSequence writes a SEQUENCE or SEQUENCE OF of these encodings with the implicit tag [number], up to 30, such as
// permittedSubtrees.
func (w *Writer) ImplicitSequence(number int, items ...[]byte) []byte {
	return w.tagged("ImplicitSequence", 0xa0, number, bytes.Join(items, nil))
}

// Boolean writes a BOOLEAN.
func (w *Writer) Boolean(value bool) []byte { return w.Encoding(0x01, []byte{-byte(flag(value))}) }

// Enumerated writes an ENUMERATED from 0 to 255, such as a CRLReason.
func (w *Writer) Enumerated(number byte) []byte {
	return w.Encoding(0x0a, Contents(w.UnsignedInteger([]byte{number})))
}

// Null writes a NULL.
func (w *Writer) Null() []byte { return w.Encoding(0x05, nil) }

// OctetString writes an OCTET STRING, such as the ExtnValue of an encoding.
func (w *Writer) OctetString(octets []byte) []byte { return w.Encoding(0x04, octets) }

// subidentifier adds an arc, or the first two (X.690 8.19.2).
func subidentifier(to []byte, number uint64) []byte {
	for shift := (bits.Len64(number|1) - 1) / 7 * 7; shift > 0; shift -= 7 {
		to = append(to, byte(number>>shift)|0x80)
	}
	return append(to, byte(number)&0x7f)
}

// arcs returns the numbers of the text of an OBJECT IDENTIFIER.
func arcs(dotted string) (found []uint64, is bool) {
	for _, text := range strings.Split(dotted, ".") {
		arc, err := strconv.ParseUint(text, 10, 64)
		if err != nil || strconv.FormatUint(arc, 10) != text {
			return nil, false
		}
		found = append(found, arc)
	}
	is = len(found) >= 2 && found[0] <= 2 && (found[0] == 2 || found[1] <= 39) && found[1] <= 1<<64-81
	return found, is
}

// identifierContents returns the contents octets of an OBJECT IDENTIFIER.
func (w *Writer) identifierContents(name, dotted string) []byte {
	numbers, is := arcs(dotted)
	if !is {
		w.refuse(name, &Error{Number: C.DER_OID_MALFORMED})
		return nil
	}
	contents := subidentifier(nil, 40*numbers[0]+numbers[1])
	for _, number := range numbers[2:] {
		contents = subidentifier(contents, number)
	}
	return contents
}

// ObjectIdentifier writes an OBJECT IDENTIFIER of its text, such as 2.5.29.17. The number of the error is 15 where the text is
// that of none, or an arc is greater than 18446744073709551615.
func (w *Writer) ObjectIdentifier(dotted string) []byte {
	return w.Encoding(0x06, w.identifierContents("ObjectIdentifier", dotted))
}

// AlgorithmIdentifier writes an AlgorithmIdentifier (RFC 5280 4.1.1.2), from the text of its identifier; parameters of nil are
// absent.
func (w *Writer) AlgorithmIdentifier(dotted string, parameters []byte) []byte {
	return w.Sequence(w.ObjectIdentifier(dotted), parameters)
}

// Attribute writes an Attribute (RFC 2986 4.1), from the text of its type and its values.
func (w *Writer) Attribute(dotted string, values ...[]byte) []byte {
	return w.Sequence(w.ObjectIdentifier(dotted), w.SetOf(values...))
}

// BitString writes a BIT STRING of all bits of these octets, such as a signature.
func (w *Writer) BitString(octets []byte) []byte {
	return w.written("BitString", octets, func(octets []byte, to *target) C.uint32_t {
		address, count := first(octets)
		buffer, size := first(to.buffer)
		return C.der_write_bit_string(address, count, buffer, size, &to.written, &to.fault)
	})
}

// NamedBits writes a BIT STRING with the named bits 0 to 15, such as a KeyUsage: bit 0 as 1, bit 1 as 2, bit 2 as 4, and so on.
// 0x60 has the bits 5 and 6, keyCertSign and cRLSign.
func (w *Writer) NamedBits(named uint16) []byte {
	turned := bits.Reverse16(named)
	return w.written("NamedBits", []byte{byte(turned >> 8), byte(turned)}, func(octets []byte, to *target) C.uint32_t {
		address, count := first(octets)
		buffer, size := first(to.buffer)
		return C.der_write_named_bits(address, count, buffer, size, &to.written, &to.fault)
	})
}

// UnsignedInteger writes an INTEGER that is not negative, from its octets, the most significant first.
func (w *Writer) UnsignedInteger(octets []byte) []byte {
	return w.written("UnsignedInteger", octets, func(octets []byte, to *target) C.uint32_t {
		address, count := first(octets)
		buffer, size := first(to.buffer)
		return C.der_write_unsigned_integer(address, count, buffer, size, &to.written, &to.fault)
	})
}

// Time writes a Time (RFC 5280 4.1.2.5): a UTCTime until 2049, then a GeneralizedTime. A fraction of a second is left out.
func (w *Writer) Time(date time.Time) []byte {
	return w.written("Time", nil, func(_ []byte, to *target) C.uint32_t {
		buffer, size := first(to.buffer)
		return C.der_write_time(moment(date), buffer, size, &to.written, &to.fault)
	})
}

// GeneralizedTime writes a GeneralizedTime. A fraction of a second is left out.
func (w *Writer) GeneralizedTime(date time.Time) []byte {
	return w.written("GeneralizedTime", nil, func(_ []byte, to *target) C.uint32_t {
		buffer, size := first(to.buffer)
		return C.der_write_generalized_time(moment(date), buffer, size, &to.written, &to.fault)
	})
}

// Ed25519Key writes a SubjectPublicKeyInfo of an Ed25519 key, of 32 octets (RFC 8410).
func (w *Writer) Ed25519Key(key []byte) []byte {
	return w.written("Ed25519Key", key, func(octets []byte, to *target) C.uint32_t {
		address, count := first(octets)
		buffer, size := first(to.buffer)
		return C.der_write_ed25519_key(address, count, buffer, size, &to.written, &to.fault)
	})
}

// P256Key writes a SubjectPublicKeyInfo of a P-256 key: 04 and both coordinates, or 02 or 03 and the first (RFC 5480). It is
// not tested whether the point is one of the curve.
func (w *Writer) P256Key(point []byte) []byte {
	return w.written("P256Key", point, func(octets []byte, to *target) C.uint32_t {
		address, count := first(octets)
		buffer, size := first(to.buffer)
		return C.der_write_p256_key(address, count, buffer, size, &to.written, &to.fault)
	})
}

// RSAKey writes a SubjectPublicKeyInfo of an RSA key, from the encoding of its RSAPublicKey, which is not read.
func (w *Writer) RSAKey(key []byte) []byte {
	return w.written("RSAKey", key, func(octets []byte, to *target) C.uint32_t {
		address, count := first(octets)
		buffer, size := first(to.buffer)
		return C.der_write_rsa_key(address, count, buffer, size, &to.written, &to.fault)
	})
}

// NameAttribute writes an AttributeTypeAndValue, from the text of its type and its text: a PrintableString, an IA5String or a
// UTF8String, as RFC 5280 has it for the type. The number of the error is 13 for a text that the type does not have.
func (w *Writer) NameAttribute(dotted, text string) []byte {
	contents := w.identifierContents("NameAttribute", dotted)
	return w.written("NameAttribute", contents, func(octets []byte, to *target) C.uint32_t {
		address, count := first(octets)
		characters, length := first([]byte(text))
		buffer, size := first(to.buffer)
		return C.der_write_name_attribute(address, count, characters, length, buffer, size, &to.written, &to.fault)
	})
}

// NameText is the text of the type of an attribute of a name, such as 2.5.4.3, and its text.
type NameText struct {
	Type, Text string
}

// Name writes a Name of attributes, each a part of its own.
func (w *Writer) Name(attributes ...NameText) []byte {
	var parts [][]byte
	for _, it := range attributes {
		parts = append(parts, w.SetOf(w.NameAttribute(it.Type, it.Text)))
	}
	return w.Sequence(parts...)
}

// GeneralName writes a GeneralName (RFC 5280 4.2.1.6) of its kind and the contents octets of its value; of a directory name the
// encoding of a Name.
func (w *Writer) GeneralName(kind NameKind, value []byte) []byte {
	switch kind {
	case OtherName, X400Address, DirectoryName, EDIPartyName:
		return w.Explicit(int(kind), value)
	}
	return w.Implicit(int(kind), value)
}

// Good writes the certStatus of a SingleResponse about a certificate that is not revoked (RFC 6960 4.2.1).
func (w *Writer) Good() []byte { return w.Implicit(0, nil) }

// Revoked writes the certStatus of a SingleResponse about a certificate that was revoked; with a reason, a number of CRLReason
// (RFC 5280 5.3.1), but for a negative one.
func (w *Writer) Revoked(date time.Time, reason int) []byte {
	contents := w.GeneralizedTime(date)
	if reason >= 0 {
		contents = append(contents, w.Explicit(0, w.Enumerated(byte(reason)))...)
	}
	return w.Explicit(1, contents)
}

// Unknown writes the certStatus of a SingleResponse about a certificate that is not known.
func (w *Writer) Unknown() []byte { return w.Implicit(2, nil) }

// ResponseBytes writes the ResponseBytes of an OCSPResponse, with their explicit tag [0], from a BasicOCSPResponse (RFC 6960
// 4.2.1).
func (w *Writer) ResponseBytes(basic []byte) []byte {
	return w.Explicit(0, w.Sequence(w.ObjectIdentifier(ocspBasic), w.OctetString(basic)))
}
