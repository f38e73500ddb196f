/* Verifiers of logs as RFC 9162 has them, as Go's checksum database, Sigstore and Sigsum keep them, and such logs as
 * they grow; and verifiers of openings of matrices. The calls keep nothing: all that they read and write is the
 * caller's own memory, before and after. So any threads may make calls at once that do not write what another one reads
 * or writes.
 *
 * No pointer may be null, also where a length is 0. Each points to as many bytes, digests, lengths or sizes as the
 * parameter behind it says, and where none does to one. What a call writes may not overlap what else it is handed; what
 * it only reads may. A digest has 32 bytes. A length counts what the pointer points to. */
#ifndef FOHLAZU_H
#define FOHLAZU_H

#include <stddef.h>
#include <stdint.h>

#ifdef __cplusplus
extern "C" {
#endif

/* What a call returns: 0, or the first of the other reasons that applies. */
enum {
  FOHLAZU_OK = 0,                /* the call has done what it is for */
  FOHLAZU_ACCEPTED = 0,          /* the same of a verifier: the proof is accepted */
  FOHLAZU_SIZE_TOO_LARGE = 1,    /* a size is above 2^62, or would be */
  FOHLAZU_INDEX_PAST_END = 2,    /* the index is not below the size */
  FOHLAZU_SMALLER_NEW_SIZE = 3,  /* the new size is below the old one */
  FOHLAZU_TOO_FEW_DIGESTS = 4,   /* the proof ends before it leads to a root */
  FOHLAZU_TOO_MANY_DIGESTS = 5,  /* the proof leads to a root before it ends */
  FOHLAZU_OLD_ROOT_MISMATCH = 6, /* the proof leads to another old root */
  FOHLAZU_ROOT_MISMATCH = 7,     /* the proof leads to another root, in a proof of consistency another new one */
  /* of openings alone, where 1 is of a height, 4 and 5 are of siblings, and 7 of the cap */
  FOHLAZU_NO_SUCH_TREE = 8,   /* the arity or the rule is none */
  FOHLAZU_NO_ROWS = 9,        /* no matrix has a row */
  FOHLAZU_WRONG_HEIGHTS = 10, /* no tree is over these heights */
  FOHLAZU_WRONG_ROWS = 11,    /* the rows have more or fewer bytes than their widths */
  /* of calls that take memory */
  FOHLAZU_OUT_OF_MEMORY = 12, /* memory ran out */
  /* of fohlazu_leaf_hashes */
  FOHLAZU_WRONG_COUNT = 13,  /* there are more or fewer places for leaf hashes than lengths */
  FOHLAZU_WRONG_LENGTHS = 14 /* the lengths add up to more or fewer bytes than there are */
};

/* So many bytes have room for any status's text, with its zero. */
enum { FOHLAZU_TEXT_SIZE = 64 };

/* Writes what a status says to text, in English, in ASCII, and a zero behind it. With less room it writes the first
 * bytes and the zero, and with none nothing. It returns how long the whole text is, without its zero. Of a number that
 * is no status the text says so. */
size_t fohlazu_error_text(int status, char *text, size_t length);

/* What a verifier says holds of a log only if the root is of one: sizes and roots are the caller's own knowledge. */

/* Verifies that the log of size entries under root has the leaf hash leaf at index, which counts from 0 (RFC 9162,
 * 2.1.3.2). */
int fohlazu_verify_inclusion(uint64_t index, uint64_t size, const uint8_t leaf[32], const uint8_t (*proof)[32],
                             size_t proof_length, const uint8_t root[32]);

/* Verifies that the log of new_size entries under new_root begins with the old_size entries under old_root (RFC 9162,
 * 2.1.4.2). From size 0, whose root is SHA-256 of nothing, and between equal sizes there are no digests. */
int fohlazu_verify_consistency(uint64_t old_size, uint64_t new_size, const uint8_t (*proof)[32], size_t proof_length,
                               const uint8_t old_root[32], const uint8_t new_root[32]);

/* What a tree over matrices of bytes was built with, under SHA-256. */
struct fohlazu_tree {
  size_t cap_height; /* how far below the root the cap is, in levels */
  uint8_t arity;     /* how many children a node has at most: 2, 4 or 8 */
  uint8_t cap_rule;  /* FOHLAZU_LOWERED, or FOHLAZU_FIXED, whose cap may leave whole matrices unhashed */
};

enum { FOHLAZU_LOWERED = 0, FOHLAZU_FIXED = 1 };

/* The dimensions of a matrix: rows, and bytes of a row. */
struct fohlazu_size {
  size_t height;
  size_t width;
};

/* Verifies that the matrices of these sizes, whose tree has a cap of these roots, have the rows that belong to index,
 * which counts rows of the tallest from 0. rows has the row of each matrix, in their order, one after another; siblings
 * are the digests on the path to the cap. Tree, roots, sizes and index are the caller's own knowledge. It copies no
 * row: it takes memory for the sizes alone, and gives it back. */
int fohlazu_verify_opening(const struct fohlazu_tree *tree, const uint8_t (*roots)[32], size_t roots_length,
                           const struct fohlazu_size *sizes, size_t sizes_length, size_t index, const uint8_t *rows,
                           size_t rows_length, const uint8_t (*siblings)[32], size_t siblings_length);

/* Writes the leaf hash of an entry: SHA-256 of a byte 0 and the entry (RFC 9162, 2.1.1). */
void fohlazu_leaf_hash(const uint8_t *entry, size_t length, uint8_t leaf[32]);

/* Writes the leaf hash of each entry, in their order. bytes has the entries one after another, and lengths the length
 * of each in bytes; leaves_length has to be lengths_length, and all lengths together bytes_length. Entries of one
 * length, or nearly, are hashed eight at a time, wherever they stand. It takes memory, some 64 bytes for each entry and
 * room for eight of the longest, and gives it back. Where it does not return 0 it has written nothing. */
int fohlazu_leaf_hashes(const uint8_t *bytes, size_t bytes_length, const size_t *lengths, size_t lengths_length,
                        uint8_t (*leaves)[32], size_t leaves_length);

/* The tree of a log that only grows. All zeros are that of no entries. It has no pointers: it may be copied, stored in
 * a file, and read on a machine of the same order of bytes. */
struct fohlazu_frontier {
  uint64_t size;           /* how many entries the log has */
  uint8_t digests[62][32]; /* first the roots of its largest perfect subtrees, from left to right: as many as ones in
                            * the size's binary digits. Nothing reads those behind them. */
};

/* Appends an entry to the log, by its leaf hash. A log of 2^62 entries is refused by FOHLAZU_SIZE_TOO_LARGE, and is as
 * it was. */
int fohlazu_log_push(struct fohlazu_frontier *frontier, const uint8_t leaf[32]);

/* Writes the root of the log (RFC 9162, 2.1.1); that of no entries is SHA-256 of nothing. A size above 2^62 is refused
 * by FOHLAZU_SIZE_TOO_LARGE, and then nothing is written. */
int fohlazu_log_root(const struct fohlazu_frontier *frontier, uint8_t root[32]);

#ifdef __cplusplus
}
#endif

#endif
