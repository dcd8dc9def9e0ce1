// Go's crypto/x509, or cryptobyte where the program's name says so, as c/peer.c: lines "CALL FILE TIMES" on standard input.
package main

import (
	"bufio"
	"crypto/x509"
	"encoding/binary"
	"fmt"
	"os"
	"path/filepath"
	"runtime"
	"strings"
	"syscall"
	"unsafe"

	"peer/cryptobyte"
	der "peer/cryptobyte/asn1"
)

type call func([]byte) int

func now() int64 {
	const threadTime = 3
	var time syscall.Timespec
	syscall.Syscall(syscall.SYS_CLOCK_GETTIME, threadTime, uintptr(unsafe.Pointer(&time)), 0)
	return time.Nano()
}

func walk(octets cryptobyte.String) int {
	count := 0
	for !octets.Empty() {
		var contents cryptobyte.String
		var tag der.Tag
		if !octets.ReadAnyASN1(&contents, &tag) {
			return 0
		}
		count++
		if tag&0x20 != 0 {
			count += walk(contents)
		}
	}
	return count
}

func certificate(octets []byte) int {
	if _, err := x509.ParseCertificate(octets); err != nil {
		return 0
	}
	return 1
}

func revoked(octets []byte) int {
	list, err := x509.ParseRevocationList(octets)
	if err != nil {
		return 0
	}
	return len(list.RevokedCertificateEntries)
}

func messages(path string) [][]byte {
	octets, err := os.ReadFile(path)
	if err != nil {
		panic(err)
	}
	var all [][]byte
	for len(octets) >= 4 {
		count := binary.BigEndian.Uint32(octets)
		all = append(all, octets[4:4+count])
		octets = octets[4+count:]
	}
	return all
}

func main() {
	runtime.LockOSThread()
	calls := map[string]call{"certificate": certificate, "revoked": revoked}
	if strings.Contains(filepath.Base(os.Args[0]), "cryptobyte") {
		calls = map[string]call{"walk": func(octets []byte) int { return walk(octets) }}
	}
	lines := bufio.NewScanner(os.Stdin)
	last, all := "", [][]byte(nil)
	for lines.Scan() {
		var name, path string
		var times int
		fmt.Sscan(lines.Text(), &name, &path, &times)
		do, known := calls[name]
		if !known {
			fmt.Println("-")
			continue
		}
		if path != last {
			last, all = path, messages(path)
		}
		sum, start := 0, now()
		for i := 0; i < times; i++ {
			sum = 0
			for _, octets := range all {
				sum += do(octets)
			}
		}
		fmt.Println(now()-start, sum)
	}
}
