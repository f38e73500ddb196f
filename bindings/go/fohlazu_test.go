package fohlazu

import (
	"crypto/sha256"
	"math/rand"
	"strconv"
	"testing"

	"golang.org/x/mod/sumdb/tlog"
)

// What a call of tlog returns, where no error is expected.
func must[T any](value T, err error) T {
	if err != nil {
		panic(err)
	}
	return value
}

// A log of the decimal numbers 1, 2, 3 and so on, and its roots by size.
func logOf(size int64) (log tlog.HashReader, roots []tlog.Hash) {
	var stored []tlog.Hash
	log = tlog.HashReaderFunc(func(indexes []int64) (found []tlog.Hash, err error) {
		for _, index := range indexes {
			found = append(found, stored[index])
		}
		return found, nil
	})
	for n := int64(0); n < size; n++ {
		roots = append(roots, must(tlog.TreeHash(n, log)))
		stored = append(stored, must(tlog.StoredHashes(n, []byte(strconv.FormatInt(n+1, 10)), log))...)
	}
	return log, append(roots, must(tlog.TreeHash(size, log)))
}

func of(hashes []tlog.Hash) (proof []Digest) {
	for _, hash := range hashes {
		proof = append(proof, Digest(hash))
	}
	return proof
}

// Drops, puts in or changes a digest, or does nothing.
func damage(random *rand.Rand, proof []tlog.Hash) []tlog.Hash {
	at := random.Intn(len(proof) + 1)
	switch kind := random.Intn(4); {
	case kind == 0:
		return append(append(append([]tlog.Hash{}, proof[:at]...), tlog.Hash{}), proof[at:]...)
	case kind == 1 && at < len(proof):
		return append(append([]tlog.Hash{}, proof[:at]...), proof[at+1:]...)
	case kind == 2 && at < len(proof):
		proof[at][random.Intn(32)] ^= 1
	}
	return proof
}

// The verdicts of CheckRecord and CheckTree, of honest proofs and of damaged ones. Go takes no size 0.
func TestBesideGo(t *testing.T) {
	random := rand.New(rand.NewSource(69))
	log, roots := logOf(100)
	for n := 0; n < 20000; n++ {
		size := 1 + random.Int63n(100)
		old := 1 + random.Int63n(size)
		index := random.Int63n(size)
		root, leaf := roots[size], tlog.RecordHash([]byte(strconv.FormatInt(index+1, 10)))
		record := damage(random, must(tlog.ProveRecord(size, index, log)))
		tree := damage(random, must(tlog.ProveTree(size, old, log)))
		if random.Intn(4) == 0 {
			size += random.Int63n(9)
		}
		accepted := VerifyInclusion(uint64(index), uint64(size), Digest(leaf), of(record), Digest(root)) == nil
		if accepted != (tlog.CheckRecord(record, size, root, index, leaf) == nil) {
			t.Fatalf("inclusion of %d in %d: %v", index, size, accepted)
		}
		accepted = VerifyConsistency(uint64(old), uint64(size), of(tree), Digest(roots[old]), Digest(root)) == nil
		if accepted != (tlog.CheckTree(tree, size, root, old, roots[old]) == nil) {
			t.Fatalf("consistency of %d and %d: %v", old, size, accepted)
		}
	}
}

// Each reason not to accept, and empty lists.
func TestErrors(t *testing.T) {
	log, roots := logOf(5)
	record, tree := of(must(tlog.ProveRecord(5, 2, log))), of(must(tlog.ProveTree(5, 3, log)))
	leaf, old, root, empty := LeafHash([]byte("3")), Digest(roots[3]), Digest(roots[5]), Digest(sha256.Sum256(nil))
	for _, c := range []struct{ found, expected error }{
		{VerifyInclusion(2, 5, leaf, record, root), nil},
		{VerifyInclusion(2, 1<<62+1, leaf, record, root), SizeTooLarge},
		{VerifyInclusion(5, 5, leaf, record, root), IndexPastEnd},
		{VerifyInclusion(2, 5, leaf, nil, root), TooFewDigests},
		{VerifyInclusion(2, 3, leaf, record, root), TooManyDigests},
		{VerifyInclusion(2, 5, LeafHash(nil), record, root), RootMismatch},
		{VerifyConsistency(3, 5, tree, old, root), nil},
		{VerifyConsistency(0, 5, nil, empty, root), nil},
		{VerifyConsistency(5, 3, tree, old, root), SmallerNewSize},
		{VerifyConsistency(3, 5, tree, root, root), OldRootMismatch},
		{VerifyConsistency(3, 5, tree, old, old), RootMismatch},
	} {
		if c.found != c.expected {
			t.Errorf("%v in place of %v", c.found, c.expected)
		}
	}
	if LeafHash(nil) != Digest(tlog.RecordHash(nil)) {
		t.Error("another leaf hash")
	}
}

// The roots of tlog, of a log as it grows. Go has no root of no entries.
func TestGrowing(t *testing.T) {
	var entries [][]byte
	for n := 1; n <= 300; n++ {
		entries = append(entries, []byte(strconv.Itoa(n)))
	}
	_, roots := logOf(300)
	leaves := must(LeafHashes(entries))
	var log Log
	if log.Root() != sha256.Sum256(nil) {
		t.Error("another root of no entries")
	}
	for n, leaf := range leaves {
		if leaf != Digest(tlog.RecordHash(entries[n])) {
			t.Fatalf("another leaf hash of %s", entries[n])
		}
		if err := log.Push(leaf); err != nil {
			t.Fatal(err)
		}
		if log.Size() != uint64(n+1) || log.Root() != Digest(roots[n+1]) {
			t.Fatalf("another root of %d entries", n+1)
		}
	}
	if none := must(LeafHashes(nil)); len(none) != 0 {
		t.Error("a leaf hash of nothing")
	}
}

// What each error says.
func TestTexts(t *testing.T) {
	for err, text := range map[ProofError]string{
		SizeTooLarge: "the size is above 2^62", RootMismatch: "the proof is of another root",
		OutOfMemory: "out of memory",
	} {
		if err.Error() != text {
			t.Errorf("%q in place of %q", err.Error(), text)
		}
	}
}
