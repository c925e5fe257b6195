// The greatest value of a flow over the four nodes of the README, by the function of the header.
package main

// #cgo LDFLAGS: -lprovedflow
// #include <provedflow.h>
import "C"
import "fmt"

func main() {
	src, dst := []C.uint32_t{0, 0, 1, 1, 2}, []C.uint32_t{1, 2, 2, 3, 3}
	capacity, flow := []C.uint64_t{3, 2, 1, 2, 3}, make([]C.uint64_t, 5)
	source, sink := []C.uint32_t{0}, []C.uint32_t{3}
	var high, low C.uint64_t
	status := C.provedflow_flow(4, 5, &src[0], &dst[0], &capacity[0], 1, &source[0], 1, &sink[0], &flow[0], &high, &low)
	fmt.Println(status, high, low, flow)
}
