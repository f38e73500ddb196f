// Answers questions by golang.org/x/mod/sumdb: each is a line of words in base64, and so is its answer, or `-` where Go
// refuses. A proof is its digests, one after another.
//
//	public SEED                                    the public key of a seed of 32 bytes
//	sign NOTE KEY..                                a text or a note, signed by private keys
//	open KEY NOTE                                  the text of a note, by a verifier key
//	checkpoint SIZE ROOT                           a checkpoint
//	tree NOTE                                      the size and the root of a signed checkpoint
//	inclusion INDEX SIZE LEAF PROOF ROOT           nothing, if the proof is right
//	consistency OLD SIZE PROOF OLD-ROOT ROOT       nothing, if the proof is right
//	prove KIND NUMBER SIZE                         a root or proof of the log of the entries 1, 2, 3 and so on
//
// Base64 of another spelling than Go prints is refused, and so are blank lines in the text of a signed checkpoint.
package main

import (
	"bufio"
	"crypto/ed25519"
	"encoding/base64"
	"errors"
	"fmt"
	"log"
	"os"
	"strconv"
	"strings"

	"golang.org/x/mod/sumdb/note"
	"golang.org/x/mod/sumdb/tlog"
)

var refused = errors.New("refused")

// The hashes that Go stores of a log's tree, and of how many entries.
var (
	hashes  []tlog.Hash
	entries int64
)

func must[T any](value T, err error) T {
	if err != nil {
		log.Fatal(err)
	}
	return value
}

func decoded(word string) string   { return string(must(base64.StdEncoding.DecodeString(word))) }
func encoded(text string) string   { return base64.StdEncoding.EncodeToString([]byte(text)) }
func number(word string) int64     { return must(strconv.ParseInt(word, 10, 64)) }
func isCanonical(word string) bool { return encoded(decoded(word)) == word }

func digests(bytes string) []tlog.Hash {
	found := make([]tlog.Hash, len(bytes)/32)
	for k := range found {
		copy(found[k][:], bytes[32*k:])
	}
	return found
}

func digest(bytes string) tlog.Hash { return digests(bytes)[0] }

// A note, whose signatures are not verified.
func unverified(text string) (*note.Note, error) {
	_, err := note.Open([]byte(text), nil)
	var found *note.UnverifiedNoteError
	if !errors.As(err, &found) {
		return nil, err
	}
	for _, signature := range found.Note.UnverifiedSigs {
		if !isCanonical(signature.Base64) {
			return nil, refused
		}
	}
	return found.Note, nil
}

func sign(text string, keys []string) (string, error) {
	n, err := unverified(text)
	if err != nil {
		n = &note.Note{Text: text}
	}
	var signers []note.Signer
	for _, key := range keys {
		signers = append(signers, must(note.NewSigner(key)))
	}
	signed, err := note.Sign(n, signers...)
	return string(signed), err
}

func open(vkey, text string) (string, error) {
	verifier, err := note.NewVerifier(vkey)
	if err != nil {
		return "", err
	}
	id, key, _ := strings.Cut(vkey[len(verifier.Name())+1:], "+")
	if !isCanonical(key) || id != fmt.Sprintf("%08x", verifier.KeyHash()) {
		return "", refused
	}
	if _, err = unverified(text); err != nil {
		return "", err
	}
	opened, err := note.Open([]byte(text), note.VerifierList(verifier))
	if err != nil {
		return "", err
	}
	return opened.Text, nil
}

func tree(text string) (string, error) {
	n, err := unverified(text)
	if err != nil || strings.Contains(n.Text, "\n\n") {
		return "", refused
	}
	found, err := tlog.ParseTree([]byte(n.Text))
	if err != nil || !strings.HasPrefix(n.Text, string(tlog.FormatTree(found))) {
		return "", refused
	}
	return fmt.Sprintf("%d %s", found.N, found.Hash), nil
}

func prove(kind string, n, size int64) (text string, err error) {
	stored := tlog.HashReaderFunc(func(indexes []int64) (found []tlog.Hash, err error) {
		for _, index := range indexes {
			found = append(found, hashes[index])
		}
		return found, nil
	})
	for ; entries < size; entries++ {
		data := strconv.AppendInt(nil, entries+1, 10)
		hashes = append(hashes, must(tlog.StoredHashes(entries, data, stored))...)
	}
	var found []tlog.Hash
	switch kind {
	case "root":
		found = []tlog.Hash{must(tlog.TreeHash(size, stored))}
	case "inclusion":
		found, err = tlog.ProveRecord(size, n, stored)
	case "consistency":
		found, err = tlog.ProveTree(size, n, stored)
	}
	for _, hash := range found {
		text += string(hash[:])
	}
	return text, err
}

func answer(kind string, words []string) (string, error) {
	switch kind {
	case "public":
		return string(ed25519.NewKeyFromSeed([]byte(words[0])).Public().(ed25519.PublicKey)), nil
	case "sign":
		return sign(words[0], words[1:])
	case "open":
		return open(words[0], words[1])
	case "checkpoint":
		return string(tlog.FormatTree(tlog.Tree{N: number(words[0]), Hash: digest(words[1])})), nil
	case "tree":
		return tree(words[0])
	case "inclusion":
		index, size, leaf, proof, root := number(words[0]), number(words[1]), digest(words[2]), digests(words[3]), words[4]
		return "", tlog.CheckRecord(proof, size, digest(root), index, leaf)
	case "consistency":
		old, size, proof, oldRoot, root := number(words[0]), number(words[1]), digests(words[2]), digest(words[3]), words[4]
		return "", tlog.CheckTree(proof, size, digest(root), old, oldRoot)
	case "prove":
		return prove(words[0], number(words[1]), number(words[2]))
	}
	return "", refused
}

func main() {
	lines := bufio.NewScanner(os.Stdin)
	lines.Buffer(nil, 1<<24)
	for lines.Scan() {
		words := strings.Split(lines.Text(), " ")
		for k, word := range words {
			words[k] = decoded(word)
		}
		if text, err := answer(words[0], words[1:]); err != nil {
			fmt.Println("-")
		} else {
			fmt.Println(encoded(text))
		}
	}
}
