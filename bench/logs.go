// Verifies by golang.org/x/mod/sumdb/tlog the proofs that bench/src/logs.rt.in verifies: 1024 of 20 digests, in a log of
// 2^20 entries, of another leaf, so that each is hashed to its end. Prints the nanoseconds of each of 5 times.
package main

import (
	"crypto/rand"
	"fmt"
	"log"
	"time"

	"golang.org/x/mod/sumdb/tlog"
)

func main() {
	var leaf tlog.Hash
	proof := make(tlog.RecordProof, 20)
	for k := range proof {
		rand.Read(proof[k][:])
	}
	for range [5]int{} {
		start := time.Now()
		for index := int64(0); index < 1024; index++ {
			if tlog.CheckRecord(proof, 1<<20, leaf, index, leaf) == nil {
				log.Fatal("a proof is accepted")
			}
		}
		fmt.Println(time.Since(start).Nanoseconds())
	}
}
