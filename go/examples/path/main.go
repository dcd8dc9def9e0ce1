// Path validates a chain of certificates, by the signatures of crypto/x509: path SECONDS ANCHOR CERTIFICATE.., files in DER,
// from the certificate that is trusted to that of the end, at a moment in seconds from 1970. Whether a certificate is revoked
// is not asked.
package main

import (
	"crypto/x509"
	"errors"
	"fmt"
	"os"
	"strconv"
	"time"

	"barleypulley/go/der"
)

// verify verifies the signature of a certificate.
func verify(one *der.Verification, octets []byte) error {
	certificate, err := x509.ParseCertificate(octets)
	if err != nil {
		return err
	}
	encoded, err := one.WorkingKey()
	if err != nil {
		return err
	}
	key, err := x509.ParsePKIXPublicKey(encoded)
	if err != nil {
		return err
	}
	signer := x509.Certificate{PublicKey: key}
	return signer.CheckSignature(certificate.SignatureAlgorithm, one.Signed, one.SignatureOctets())
}

// told is what is said of a chain.
func told(moment int64, anchor *der.Certificate, chain [][]byte) string {
	inputs := der.PathInputs{
		Moment:     time.Unix(moment, 0),
		AnchorName: anchor.Subject(),
		AnchorKey:  anchor.SubjectPublicKeyInfo(),
	}
	path, err := der.CheckPath(inputs, chain)
	var refused *der.PathError
	if errors.As(err, &refused) && refused.Step != 0 {
		return fmt.Sprintf("refused %d %v", refused.Index, refused.Step)
	}
	if err != nil {
		return fmt.Sprintf("refused: %v", err)
	}
	for index, one := range path.Verifications {
		if err := verify(&one, chain[index]); err != nil {
			return fmt.Sprintf("refused %d 6.1.3 (a)(1)", index)
		}
	}
	return "valid"
}

func run(words []string) (string, error) {
	if len(words) < 3 {
		return "", errors.New("path SECONDS ANCHOR CERTIFICATE..")
	}
	moment, err := strconv.ParseInt(words[0], 10, 64)
	if err != nil {
		return "", err
	}
	var octets [][]byte
	for _, name := range words[1:] {
		one, err := os.ReadFile(name)
		if err != nil {
			return "", err
		}
		octets = append(octets, one)
	}
	anchor, err := der.ReadCertificate(octets[0])
	if err != nil {
		return "", err
	}
	return told(moment, anchor, octets[1:]), nil
}

func main() {
	text, err := run(os.Args[1:])
	if err != nil {
		fmt.Fprintln(os.Stderr, err)
		os.Exit(2)
	}
	fmt.Println(text)
	if text != "valid" {
		os.Exit(1)
	}
}
