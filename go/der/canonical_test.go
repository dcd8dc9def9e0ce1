package der

import (
	"bytes"
	"encoding/hex"
	"errors"
	"testing"
)

func numberOf(err error) uint32 {
	var refused *Error
	if errors.As(err, &refused) {
		return refused.Number
	}
	return 0
}

func TestCanonical(t *testing.T) {
	unordered, ordered := []byte{0x31, 6, 2, 1, 8, 2, 1, 7}, []byte{0x31, 6, 2, 1, 7, 2, 1, 8}
	rows := []struct {
		name         string
		octets, want []byte
		number       uint32
	}{
		{"u16", []byte{2, 1, 5}, []byte{2, 1, 5}, 0},
		{"spki", key(t), key(t), 0},
		{"setvec-u16", unordered, ordered, 0},
		{"opt-u8", nil, nil, 0},
		{"u17", []byte{2, 1, 5}, nil, 102},
		{"", nil, nil, 102},
		{"u16", []byte{2, 0}, nil, 7},
		{"cert", key(t), nil, 4},
	}
	for _, row := range rows {
		found, err := Canonical(row.name, row.octets)
		if numberOf(err) != row.number || !bytes.Equal(found, row.want) {
			t.Errorf("%q: %x, %v", row.name, found, err)
		}
	}
}

func TestRulesBesideX509(t *testing.T) {
	certificates, wanted := certificates(t)
	for at, one := range certificates {
		octets, want := one.Octets(), wanted[at]
		found, err := Canonical("cert", octets)
		if err != nil {
			t.Fatal(err)
		}
		same(t, "the encoding", found, octets)
		if want == nil {
			continue
		}
		broken, err := CheckRFC5280(octets)
		if err != nil {
			t.Fatal(err)
		}
		if (broken&CertificateSerialNumberIsPositive == 0) != (want.SerialNumber.Sign() > 0) {
			t.Errorf("%v, of the serial number %v", broken, want.SerialNumber)
		}
		if (broken&CertificateExtensionsInVersion3 == 0) != (want.Version == 3 || len(want.Extensions) == 0) {
			t.Errorf("%v, of %d extensions in version %d", broken, len(want.Extensions), want.Version)
		}
	}
}

func TestRulesOfLists(t *testing.T) {
	octets, err := hex.DecodeString("302c3022300306012a300c310a300806035504030c0161170d3236303130313030303030305a300306012a030100")
	if err != nil {
		t.Fatal(err)
	}
	absent := ListNextUpdateIsThere | ListAuthorityHasKeyIdentifier | ListCrlNumberIsThere
	if broken, err := CheckRFC5280List(octets); broken != absent || err != nil {
		t.Errorf("%v, %v", broken, err)
	}
	octets[len(octets)-4]++
	if broken, err := CheckRFC5280List(octets); broken != absent|ListAlgorithmsAgree || err != nil {
		t.Errorf("%v, %v", broken, err)
	}
	if _, err := CheckRFC5280(octets); numberOf(err) != 4 {
		t.Errorf("%v", err)
	}
}
