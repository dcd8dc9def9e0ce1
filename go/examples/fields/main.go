// Fields prints fields of certificates as hex, a line each: fields FILE.., of one certificate in DER a file.
package main

import (
	"fmt"
	"os"

	"barleypulley/go/der"
)

func print(octets []byte) error {
	certificate, err := der.ReadCertificate(octets)
	if err != nil {
		return err
	}
	fmt.Printf("version %d\n", certificate.Version())
	fmt.Printf("not before %d\n", certificate.NotBefore().Unix())
	fmt.Printf("not after %d\n", certificate.NotAfter().Unix())
	fmt.Printf("issuer %x\n", certificate.Issuer())
	fmt.Printf("subject %x\n", certificate.Subject())
	extensions := certificate.Extensions()
	for extensions.Next() {
		extension := extensions.Item()
		fmt.Printf("extension %x %t %x\n", extension.Identifier(), extension.IsCritical(), extension.Value())
	}
	return extensions.Err()
}

func main() {
	for _, name := range os.Args[1:] {
		octets, err := os.ReadFile(name)
		if err == nil {
			err = print(octets)
		}
		if err != nil {
			fmt.Fprintln(os.Stderr, err)
			os.Exit(1)
		}
	}
}
