// SPDX-License-Identifier: MIT OR Apache-2.0

// Count prints how many packets of a capture an expression accepts, and what rejects the others:
//
//	go run . 'udp port 5353' ../veth.pcap
package main

import (
	"fmt"
	"os"
	"sort"

	"bpftap"
)

// rejects counts by what each packet is rejected.
func rejects(filter *bpftap.Filter, packets []bpftap.Packet) (map[string]int, error) {
	counts := map[string]int{}
	for _, packet := range packets {
		verdict, part, err := filter.Why(packet.Data, packet.Wire)
		if err != nil {
			return nil, err
		}
		if verdict != bpftap.Yes {
			counts[part]++
		}
	}
	return counts, nil
}

func count(expression, path string) error {
	filter, err := bpftap.Compile(expression)
	if err != nil {
		return fmt.Errorf("%s: %w", expression, err)
	}
	content, err := os.ReadFile(path)
	if err != nil {
		return err
	}
	reader, err := bpftap.NewReader(content)
	if err != nil {
		return fmt.Errorf("%s: %w", path, err)
	}
	// A torn record comes after the packets before it.
	packets, torn := reader.All()
	counts, err := rejects(filter, packets)
	if err != nil {
		return err
	}
	left, parts := len(packets), []string{}
	for part, times := range counts {
		left -= times
		parts = append(parts, part)
	}
	sort.Strings(parts)
	fmt.Println(left, "of", len(packets), "packets")
	for _, part := range parts {
		fmt.Println(counts[part], "rejected by", part)
	}
	return torn
}

func main() {
	if len(os.Args) != 3 {
		fmt.Fprintln(os.Stderr, "usage: count EXPRESSION CAPTURE")
		os.Exit(2)
	}
	if err := count(os.Args[1], os.Args[2]); err != nil {
		fmt.Fprintln(os.Stderr, "count:", err)
		os.Exit(1)
	}
}
