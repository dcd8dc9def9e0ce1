package der

// #include <barleypulley/der.h>
import "C"

// AttributeTypeAndValue is an attribute of a name (RFC 5280 4.1.2.4).
type AttributeTypeAndValue struct {
	octets []byte
	at     C.der_attribute_type_and_value_at
}

// Octets gives the whole attribute.
func (a AttributeTypeAndValue) Octets() []byte { return a.octets }

// written by tools/bindings: fields of AttributeTypeAndValue

// Type returns type, an OBJECT IDENTIFIER.
func (a AttributeTypeAndValue) Type() []byte { return at(a.octets, a.at._type) }

// Value returns value, of any type.
func (a AttributeTypeAndValue) Value() []byte { return at(a.octets, a.at.value) }

// end of fields of AttributeTypeAndValue

// Identifier gives the contents octets of type: 55 04 03 of commonName.
func (a AttributeTypeAndValue) Identifier() []byte { return Contents(a.Type()) }

// NameAttributes gives the attributes of a name that was read, as the issuer of a certificate, in their order.
func NameAttributes(name []byte) ([]AttributeTypeAndValue, error) {
	found := make([]AttributeTypeAndValue, 0, 8)
	items := Items[AttributeTypeAndValue]{read: readAttributeTypeAndValue}
	for parts := Contents(name); len(parts) > 0; {
		part := firstEncoding(parts)
		parts = parts[len(part):]
		items.left = Contents(part)
		if len(items.left) == 0 {
			_, err := readAttributeTypeAndValue(nil, &items.now, &items.fault)
			return nil, err
		}
		for items.Next() {
			found = append(found, items.Item())
		}
		if items.Err() != nil {
			return nil, items.Err()
		}
	}
	return found, nil
}

// firstEncoding gives the encoding at the front of octets; nothing where there is none.
func firstEncoding(octets []byte) []byte {
	_, end := header(octets)
	return octets[:end:end]
}

// readAttributeTypeAndValue reads the attribute at the front of octets, and says how many it has.
func readAttributeTypeAndValue(octets []byte, to *AttributeTypeAndValue, fault *C.der_fault) (int, error) {
	address, count := first(octets)
	if err := answered(C.der_attribute_type_and_value(address, count, &to.at, fault), fault); err != nil {
		return 0, err
	}
	to.octets = at(octets, to.at.whole)
	return len(to.octets), nil
}

// Attribute is an attribute with a set of values (RFC 5652 5.3, RFC 2986 4.1).
type Attribute struct {
	octets []byte
	at     C.der_attribute_at
}

// Octets gives the whole attribute.
func (a Attribute) Octets() []byte { return a.octets }

// written by tools/bindings: fields of Attribute

// Type returns type, an OBJECT IDENTIFIER.
func (a Attribute) Type() []byte { return at(a.octets, a.at._type) }

// Values returns values, a SET OF.
func (a Attribute) Values() []byte { return at(a.octets, a.at.values) }

// end of fields of Attribute

// Identifier gives the contents octets of type: 2A 86 48 86 F7 0D 01 09 04 of messageDigest.
func (a Attribute) Identifier() []byte { return Contents(a.Type()) }

// readAttribute reads the attribute at the front of octets, and says how many it has.
func readAttribute(octets []byte, to *Attribute, fault *C.der_fault) (int, error) {
	address, count := first(octets)
	if err := answered(C.der_attribute(address, count, &to.at, fault), fault); err != nil {
		return 0, err
	}
	to.octets = at(octets, to.at.whole)
	return len(to.octets), nil
}

// Attributes goes over those of a field that was read, as attributes of a private key, in their order; over none of nil.
func Attributes(field []byte) *Items[Attribute] {
	return &Items[Attribute]{left: Contents(field), read: readAttribute}
}
