package der

import (
	"crypto/x509"
	"encoding/hex"
	"testing"
)

// sink keeps what a benchmark reads.
var sink int

// rsaEncryption is the identifier of a key of RSA (RFC 8017 C).
var rsaEncryption, _ = hex.DecodeString("2a864886f70d010101")

// peer reads what a client of TLS reads in a certificate: dates, serial number, names, alternative names, usage, constraints
// and key.
func peer(octets []byte) (int, error) {
	certificate, err := ReadCertificate(octets)
	if err != nil {
		return 0, err
	}
	sum := len(Contents(certificate.SerialNumber())) + int(certificate.NotBefore().Unix()+certificate.NotAfter().Unix())
	for _, name := range [][]byte{certificate.Issuer(), certificate.Subject()} {
		attributes, err := NameAttributes(name)
		if err != nil {
			return 0, err
		}
		for _, attribute := range attributes {
			sum += len(attribute.Identifier()) + len(Contents(attribute.Value()))
		}
	}
	for found := certificate.Extensions(); found.Next(); {
		count, err := value(found.Item())
		if err != nil {
			return 0, err
		}
		sum += count
	}
	count, err := publicKey(certificate.SubjectPublicKeyInfo())
	return sum + count, err
}

// value reads a subjectAltName, a keyUsage or basicConstraints.
func value(extension Extension) (int, error) {
	id := extension.Identifier()
	if len(id) != 3 || id[0] != 0x55 || id[1] != 0x1d {
		return len(extension.Value()), nil
	}
	switch id[2] {
	case 15:
		bits, err := NamedBits(extension.Value())
		return int(bits), err
	case 17:
		sum := 0
		for _, name := range Encodings(extension.Value()) {
			kind, octets, err := GeneralName(name)
			if err != nil {
				return 0, err
			}
			sum += int(kind) + len(octets)
		}
		return sum, nil
	case 19:
		constraints, err := ReadBasicConstraints(extension.Value())
		if err != nil || constraints.PathLenConstraint() == nil {
			return 0, err
		}
		most, err := UnsignedInteger(constraints.PathLenConstraint())
		return int(most), err
	}
	return len(extension.Value()), nil
}

// publicKey reads the algorithm of a key, and the numbers of one of RSA.
func publicKey(octets []byte) (int, error) {
	info, err := ReadSubjectPublicKeyInfo(octets)
	if err != nil {
		return 0, err
	}
	algorithm, err := ReadAlgorithmIdentifier(info.Algorithm())
	if err != nil {
		return 0, err
	}
	held := Contents(info.SubjectPublicKey())[1:]
	if string(Contents(algorithm.Oid())) != string(rsaEncryption) {
		return len(held), nil
	}
	numbers, err := ReadRSAPublicKey(held)
	if err != nil {
		return 0, err
	}
	return len(Contents(numbers.Modulus())) + len(Contents(numbers.PublicExponent())), nil
}

// readable gives the certificates that both packages read.
func readable(b *testing.B) [][]byte {
	var found [][]byte
	for _, octets := range blocks(b, "CERTIFICATE") {
		_, err := peer(octets)
		if _, other := x509.ParseCertificate(octets); err == nil && other == nil {
			found = append(found, octets)
		}
	}
	if len(found) == 0 {
		b.Skip("there are no certificates")
	}
	return found
}

// Of one certificate: `go test -bench Peer -count 20`; the share of the least times is measured.
func BenchmarkPeer(b *testing.B) {
	found := readable(b)
	b.ResetTimer()
	for i := 0; i < b.N; i++ {
		count, _ := peer(found[i%len(found)])
		sink += count
	}
}

func BenchmarkPeerOfX509(b *testing.B) {
	found := readable(b)
	b.ResetTimer()
	for i := 0; i < b.N; i++ {
		certificate, _ := x509.ParseCertificate(found[i%len(found)])
		sink += len(certificate.DNSNames)
	}
}
