package der

import (
	"bytes"
	"crypto/x509"
	"errors"
	"testing"
	"time"
)

func newAuthority(t *testing.T, name string) *issuing {
	s := newIssuing(t)
	s.name = s.Name(NameText{"2.5.4.3", name})
	return s
}

// issue writes a certificate that one issues for another.
func (s *issuing) issue(t *testing.T, of *issuing, extensions ...[]byte) []byte {
	body := s.TBSCertificate(TBSCertificateFields{
		Version:              3,
		SerialNumber:         s.UnsignedInteger([]byte{7}),
		Signature:            s.how,
		Issuer:               s.name,
		NotBefore:            begin,
		NotAfter:             end,
		Subject:              of.name,
		SubjectPublicKeyInfo: of.info,
		Extensions:           extensions,
	})
	one := s.Certificate(CertificateFields{TBSCertificate: body, SignatureAlgorithm: s.how, SignatureValue: s.sign(t, body)})
	well(t, &s.Writer)
	return one
}

func (s *issuing) inputs() PathInputs {
	return PathInputs{Moment: end, AnchorName: s.name, AnchorKey: s.info}
}

func refusedAt(t *testing.T, name string, err error, number uint32, index int, step Step) {
	t.Helper()
	var refused *PathError
	if !errors.As(err, &refused) || refused.Index != index || refused.Step != step || numberOf(err) != number {
		t.Errorf("%s: %v, not %d at %d by %v", name, err, number, index, step)
	}
}

func TestAChain(t *testing.T) {
	root, middle, last := newAuthority(t, "root"), newAuthority(t, "middle"), newAuthority(t, "end")
	authority := root.extension("2.5.29.19", true, root.Sequence(root.Boolean(true)))
	chain := [][]byte{root.issue(t, middle, authority), middle.issue(t, last)}
	path, err := CheckPath(root.inputs(), chain)
	if err != nil {
		t.Fatal(err)
	}
	for index, by := range []*issuing{root, middle} {
		one := path.Verifications[index]
		key, err := one.WorkingKey()
		if err != nil {
			t.Fatal(err)
		}
		same(t, "the key", key, by.info)
		public, err := x509.ParsePKIXPublicKey(key)
		if err != nil {
			t.Fatal(err)
		}
		signer := x509.Certificate{PublicKey: public}
		if err := signer.CheckSignature(x509.ECDSAWithSHA256, one.Signed, one.SignatureOctets()); err != nil {
			t.Error(err)
		}
		same(t, "the algorithm", one.Algorithm, by.how)
	}
	late := root.inputs()
	late.Moment = end.Add(time.Second)
	_, err = CheckPath(late, chain)
	refusedAt(t, "late", err, 104, 0, StepValidity)
	if text := "certificate 0: der: 6.1.3 (a)(2) refuses it"; err == nil || err.Error() != text {
		t.Errorf("%v, not %s", err, text)
	}
	_, err = CheckPath(last.inputs(), chain)
	refusedAt(t, "another anchor", err, 104, 0, StepIssuer)
	_, err = CheckPath(root.inputs(), [][]byte{root.issue(t, middle), chain[1]})
	refusedAt(t, "no authority", err, 104, 0, StepCA)
	_, err = CheckPath(root.inputs(), nil)
	refusedAt(t, "no chain", err, 106, -1, 0)
	other := []byte{0x30, 3, 2, 1, 5}
	_, err = CheckPath(root.inputs(), [][]byte{chain[0], other})
	refusedAt(t, "no certificate", err, 4, 1, 0)
	_, want := ReadCertificate(other)
	if found := errors.Unwrap(err); found == nil || want == nil || found.Error() != want.Error() {
		t.Errorf("%v, not %v", found, want)
	}
	wrong := root.inputs()
	wrong.AnchorKey = []byte{5, 0}
	_, err = CheckPath(wrong, chain)
	refusedAt(t, "no key", err, 4, -1, 0)
}

func TestInheritedParameters(t *testing.T) {
	s := newIssuing(t)
	parts := Encodings(s.info)
	bare := s.Sequence(s.AlgorithmIdentifier("1.2.840.10045.2.1", nil), parts[1])
	one := Verification{Key: bare, Parameters: s.ObjectIdentifier("1.2.840.10045.3.1.7")}
	key, err := one.WorkingKey()
	if err != nil || !bytes.Equal(key, s.info) {
		t.Errorf("%x, %v", key, err)
	}
}

func TestPoliciesAndConstraints(t *testing.T) {
	root, last := newAuthority(t, "root"), newAuthority(t, "end")
	policy, other := root.ObjectIdentifier("2.5.29.32.1"), root.ObjectIdentifier("2.5.29.32.2")
	policies := root.extension("2.5.29.32", false, root.Sequence(root.Sequence(policy)))
	host := root.extension("2.5.29.17", false, root.Sequence(root.GeneralName(DNSName, []byte("one.mill.example"))))
	chain := [][]byte{root.issue(t, last, policies, host)}
	inputs := root.inputs()
	inputs.Policies, inputs.ExplicitPolicy = [][]byte{policy}, true
	path, err := CheckPath(inputs, chain)
	if err != nil || len(path.Policies) != 1 || !bytes.Equal(path.Policies[0], policy) {
		t.Fatalf("%v, %v", path, err)
	}
	inputs.Policies = [][]byte{other}
	_, err = CheckPath(inputs, chain)
	refusedAt(t, "another policy", err, 104, 0, StepUserPolicies)
	for _, name := range []string{"mill.example", "other.example"} {
		inputs := root.inputs()
		base := root.Sequence(root.GeneralName(DNSName, []byte(name)))
		inputs.Constraints = root.Sequence(root.ImplicitSequence(0, base))
		_, err := CheckPath(inputs, chain)
		if name == "mill.example" && err != nil {
			t.Error(err)
		} else if name != "mill.example" {
			refusedAt(t, name, err, 104, 0, StepPermitted)
		}
	}
}
