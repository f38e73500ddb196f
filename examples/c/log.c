/* Verifies proofs of a log:
 *
 *     log inclusion INDEX SIZE ENTRY ROOT DIGEST..
 *     log consistency OLD-SIZE NEW-SIZE OLD-ROOT NEW-ROOT DIGEST..
 *
 * Roots and digests are hexadecimal, and indices count from 0. The status is that of the call, 100 for other words. */
#include <fohlazu.h>

#include <stdio.h>
#include <stdlib.h>
#include <string.h>

enum { MOST_DIGESTS = 200, WRONG_WORDS = 100 };

/* Reads a digest. */
static void read_digest(const char *word, uint8_t digest[32]) {
  if (strlen(word) != 64 || strspn(word, "0123456789abcdef") != 64) {
    fputs("log: a digest has 64 hexadecimal digits\n", stderr);
    exit(WRONG_WORDS);
  }
  for (int k = 0; k < 32; k++) {
    sscanf(word + 2 * k, "%2hhx", &digest[k]);
  }
}

int main(int count, char **words) {
  static uint8_t proof[MOST_DIGESTS][32];
  uint8_t first[32], root[32];
  if (count < 6 || count - 6 > MOST_DIGESTS) {
    fputs("log: inclusion or consistency, two numbers, two words and the digests are needed\n", stderr);
    return WRONG_WORDS;
  }
  const uint64_t low = strtoull(words[2], NULL, 10), high = strtoull(words[3], NULL, 10);
  const size_t length = (size_t)count - 6;
  read_digest(words[5], root);
  for (size_t k = 0; k < length; k++) {
    read_digest(words[6 + k], proof[k]);
  }
  if (strcmp(words[1], "inclusion") == 0) {
    fohlazu_leaf_hash((const uint8_t *)words[4], strlen(words[4]), first);
    return fohlazu_verify_inclusion(low, high, first, (const uint8_t(*)[32])proof, length, root);
  }
  read_digest(words[4], first);
  return fohlazu_verify_consistency(low, high, (const uint8_t(*)[32])proof, length, first, root);
}
