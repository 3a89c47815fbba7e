// A block in Go, by cgo, statically: go run examples/other/block.go
package main

// #cgo CFLAGS: -I${SRCDIR}/../../bindings/c
// #cgo LDFLAGS: ${SRCDIR}/../../dist/x86_64-linux/libum.a
// #include "um.h"
import "C"
import "fmt"

func main() {
	octets := [23]C.uint8_t{3, 3, 1}
	var bursts [4][148]C.uint8_t
	var soft [4][148]C.int8_t
	var report C.um_block_report
	if !C.um_send_block(&octets[0], 5, &bursts[0]) {
		panic("um_send_block")
	}
	for b := range bursts {
		for i, bit := range bursts[b] {
			soft[b][i] = 127
			if bit == 1 {
				soft[b][i] = -127
			}
		}
	}
	soft[1][10] = -soft[1][10]
	if !C.um_receive_block(&soft[0], &report) || report.accepted != 1 {
		panic("um_receive_block")
	}
	fmt.Printf("tsc %d, %d wrong bit\n", report.tsc, report.wrong_coded)
}
