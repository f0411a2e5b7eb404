// SPDX-License-Identifier: MIT OR Apache-2.0

package bpftap_test

import (
	"errors"
	"fmt"
	"log"
	"os"

	"bpftap"
)

// The packets of a capture that an expression accepts are counted.
func Example() {
	dns, err := bpftap.Compile("udp port 5353")
	if err != nil {
		log.Fatal(err)
	}
	content, err := os.ReadFile("../../examples/veth.pcap")
	if err != nil {
		log.Fatal(err)
	}
	reader, err := bpftap.NewReader(content)
	if err != nil {
		log.Fatal(err)
	}
	packets, err := reader.All()
	count := 0
	for _, answer := range dns.RunEach(packets) {
		if answer > 0 {
			count++
		}
	}
	fmt.Println(count, "of", len(packets), err)
	// Output: 67 of 253 <nil>
}

func ExampleFilter_Why() {
	web, _ := bpftap.Compile("tcp port 80")
	fmt.Println(web.Why(make([]byte, 60), 60))
	// Output: No tcp port 80 <nil>
}

func ExampleCompile() {
	_, err := bpftap.Compile("port http")
	fmt.Println(err, errors.Is(err, bpftap.BadWord))
	// Output: BadWord 5 true
}

func ExampleError() {
	_, err := bpftap.Compile("icmp and proot 17")
	var refused *bpftap.Error
	if errors.As(err, &refused) {
		fmt.Println(refused, refused.Hint)
	}
	// Output: BadWord 9 did you mean `proto`?
}

func ExampleCompare() {
	found, _ := bpftap.Compare("port 80", "src port 80 or dst port 80", bpftap.DefaultBudget)
	fmt.Println(found.Answer)
	// Output: Same
}

func ExampleCut() {
	content, _ := os.ReadFile("../../examples/veth.pcap")
	arp, _ := bpftap.Compile("arp")
	written, err := bpftap.Cut(content, arp, 20)
	fmt.Println(len(written), err)
	// Output: 276 <nil>
}
