// Package fohlazu verifies proofs of logs as RFC 9162 has them, as Go's checksum database, Sigstore and Sigsum keep
// them, and grows such logs, by libfohlazu.a, which is proved in Rattle. Indices count from 0, sizes go up to 2^62. What
// a verifier says holds of a log only if the root is of one.
package fohlazu

// #cgo CFLAGS: -I${SRCDIR}/../../include
// #cgo LDFLAGS: -L${SRCDIR}/../../build -l:libfohlazu.a
// #include <fohlazu.h>
import "C"

import "unsafe"

// A Digest is a value of SHA-256.
type Digest = [32]byte

// A ProofError is why a proof is refused, or a call is not made: the first reason that applies, in the order of these
// constants.
type ProofError int

const (
	SizeTooLarge    ProofError = C.FOHLAZU_SIZE_TOO_LARGE    // a size is above 2^62
	IndexPastEnd    ProofError = C.FOHLAZU_INDEX_PAST_END    // the index is not below the size
	SmallerNewSize  ProofError = C.FOHLAZU_SMALLER_NEW_SIZE  // the new size is below the old one
	TooFewDigests   ProofError = C.FOHLAZU_TOO_FEW_DIGESTS   // the proof ends before it leads to a root
	TooManyDigests  ProofError = C.FOHLAZU_TOO_MANY_DIGESTS  // the proof leads to a root before it ends
	OldRootMismatch ProofError = C.FOHLAZU_OLD_ROOT_MISMATCH // the proof leads to another old root
	RootMismatch    ProofError = C.FOHLAZU_ROOT_MISMATCH     // the proof leads to another root, or another new one
	OutOfMemory     ProofError = C.FOHLAZU_OUT_OF_MEMORY     // memory ran out: of LeafHashes alone
)

func (e ProofError) Error() string {
	var text [C.FOHLAZU_TEXT_SIZE]C.char
	C.fohlazu_error_text(C.int(e), &text[0], C.FOHLAZU_TEXT_SIZE)
	return C.GoString(&text[0])
}

// VerifyInclusion verifies that the log of size entries under root has leaf as the leaf hash of its entry index
// (RFC 9162, 2.1.3.2). It returns nil, or a ProofError.
func VerifyInclusion(index, size uint64, leaf Digest, proof []Digest, root Digest) error {
	return verdict(C.fohlazu_verify_inclusion(C.uint64_t(index), C.uint64_t(size), bytes(&leaf), digests(proof),
		C.size_t(len(proof)), bytes(&root)))
}

// VerifyConsistency verifies that the log of newSize entries under newRoot begins with the oldSize entries under
// oldRoot (RFC 9162, 2.1.4.2). From size 0, whose root is SHA-256 of nothing, and between equal sizes there are no
// digests. It returns nil, or a ProofError.
func VerifyConsistency(oldSize, newSize uint64, proof []Digest, oldRoot, newRoot Digest) error {
	return verdict(C.fohlazu_verify_consistency(C.uint64_t(oldSize), C.uint64_t(newSize), digests(proof),
		C.size_t(len(proof)), bytes(&oldRoot), bytes(&newRoot)))
}

// LeafHash returns the leaf hash of an entry: SHA-256 of a byte 0 and the entry (RFC 9162, 2.1.1).
func LeafHash(entry []byte) (leaf Digest) {
	length := len(entry)
	if length == 0 {
		entry = []byte{0}
	}
	C.fohlazu_leaf_hash((*C.uint8_t)(&entry[0]), C.size_t(length), bytes(&leaf))
	return leaf
}

// LeafHashes returns the leaf hash of each entry, in their order. Entries of one length, or nearly, are hashed eight at a
// time. It returns OutOfMemory if memory runs out.
func LeafHashes(entries [][]byte) ([]Digest, error) {
	lengths, total := make([]C.size_t, len(entries)+1), 0
	for n, entry := range entries {
		lengths[n] = C.size_t(len(entry))
		total += len(entry)
	}
	// No pointer is null, also where there are no entries.
	joined, leaves := make([]byte, 0, total+1), make([]Digest, len(entries)+1)
	for _, entry := range entries {
		joined = append(joined, entry...)
	}
	count := C.size_t(len(entries))
	err := verdict(C.fohlazu_leaf_hashes((*C.uint8_t)(&joined[:1][0]), C.size_t(total), &lengths[0], count,
		digests(leaves), count))
	if err != nil {
		return nil, err
	}
	return leaves[:len(entries)], nil
}

// A Log is the tree of a log that only grows, in 62 digests at most, and may be copied. The zero value has no entries.
type Log struct {
	frontier C.struct_fohlazu_frontier
}

// Size returns how many entries the log has.
func (l *Log) Size() uint64 {
	return uint64(l.frontier.size)
}

// Push appends an entry by its leaf hash. A log of 2^62 entries stays as it is, and SizeTooLarge is returned.
func (l *Log) Push(leaf Digest) error {
	return verdict(C.fohlazu_log_push(&l.frontier, bytes(&leaf)))
}

// Root returns the root of the log (RFC 9162, 2.1.1); that of no entries is SHA-256 of nothing.
func (l *Log) Root() (root Digest) {
	// No log has a size that is refused.
	C.fohlazu_log_root(&l.frontier, bytes(&root))
	return root
}

func verdict(status C.int) error {
	if status == C.FOHLAZU_ACCEPTED {
		return nil
	}
	return ProofError(status)
}

func bytes(digest *Digest) *C.uint8_t {
	return (*C.uint8_t)(&digest[0])
}

// The library takes no null pointer, also where there are no digests.
func digests(proof []Digest) *[32]C.uint8_t {
	if len(proof) == 0 {
		proof = make([]Digest, 1)
	}
	return (*[32]C.uint8_t)(unsafe.Pointer(&proof[0]))
}
