// The same by Go's crypto/x509, which also reads the extensions that it knows, and the key.
package main

import (
	"crypto/x509"
	"encoding/asn1"
	"fmt"
	"os"
	"strconv"
)

func certificates(octets []byte) int {
	all := 0
	for len(octets) > 0 {
		var one asn1.RawValue
		rest, err := asn1.Unmarshal(octets, &one)
		if err != nil {
			return -1
		}
		octets = rest
		read, err := x509.ParseCertificate(one.FullBytes)
		if err != nil {
			return -1
		}
		all += len(read.Issuer.Names) + len(read.Subject.Names) + len(read.Extensions)
	}
	return all
}

func list(octets []byte) int {
	read, err := x509.ParseRevocationList(octets)
	if err != nil {
		return -1
	}
	return len(read.RevokedCertificates)
}

func main() {
	octets, err := os.ReadFile(os.Args[1])
	if err != nil {
		panic(err)
	}
	rounds, _ := strconv.Atoi(os.Args[3])
	found := 0
	for ; rounds > 0; rounds-- {
		if os.Args[2] == "list" {
			found = list(octets)
		} else {
			found = certificates(octets)
		}
	}
	fmt.Println(found)
}
