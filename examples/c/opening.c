/* Verifies an opening of matrices of bytes under SHA-256:
 *
 *     opening ARITY CAP-HEIGHT[f] INDEX ROWS HEIGHTxWIDTH.. roots DIGEST.. siblings DIGEST..
 *
 * ROWS are the rows of all matrices, one after another. Rows and digests are hexadecimal, and an f after the cap height is
 * the fixed rule. The status is that of the call, 100 for other words. */
#include <fohlazu.h>

#include <stdio.h>
#include <stdlib.h>
#include <string.h>

enum { MOST = 1000, WRONG_WORDS = 100 };

/* Reads hexadecimal digits, and returns how many bytes they are. */
static size_t read_bytes(const char *word, uint8_t *bytes, size_t most) {
  const size_t length = strlen(word);
  if (length % 2 != 0 || length / 2 > most || strspn(word, "0123456789abcdef") != length) {
    fputs("opening: an even number of hexadecimal digits is needed\n", stderr);
    exit(WRONG_WORDS);
  }
  for (size_t k = 0; k < length / 2; k++) {
    sscanf(word + 2 * k, "%2hhx", &bytes[k]);
  }
  return length / 2;
}

int main(int count, char **words) {
  static uint8_t rows[MOST], roots[MOST][32], siblings[MOST][32];
  static struct fohlazu_size sizes[MOST];
  size_t matrices = 0, roots_length = 0, siblings_length = 0;
  enum { SIZES, ROOTS, SIBLINGS } list = SIZES;
  if (count < 7 || count > MOST) {
    fputs("opening: an arity, a cap height, an index, rows, sizes, roots and siblings are needed\n", stderr);
    return WRONG_WORDS;
  }
  char *rule, *width;
  struct fohlazu_tree tree = {.arity = (uint8_t)strtoul(words[1], NULL, 10)};
  tree.cap_height = strtoull(words[2], &rule, 10);
  tree.cap_rule = *rule == 'f' ? FOHLAZU_FIXED : FOHLAZU_LOWERED;
  const size_t index = strtoull(words[3], NULL, 10);
  const size_t rows_length = read_bytes(words[4], rows, MOST);
  for (words += 5; *words != NULL; words++) {
    if (strcmp(*words, "roots") == 0) {
      list = ROOTS;
    } else if (strcmp(*words, "siblings") == 0) {
      list = SIBLINGS;
    } else if (list == SIZES) {
      sizes[matrices].height = strtoull(*words, &width, 10);
      sizes[matrices++].width = *width == 'x' ? strtoull(width + 1, NULL, 10) : 0;
    } else if (read_bytes(*words, list == ROOTS ? roots[roots_length++] : siblings[siblings_length++], 32) != 32) {
      fputs("opening: a digest has 64 hexadecimal digits\n", stderr);
      return WRONG_WORDS;
    }
  }
  return fohlazu_verify_opening(&tree, (const uint8_t(*)[32])roots, roots_length, sizes, matrices, index, rows,
                                rows_length, (const uint8_t(*)[32])siblings, siblings_length);
}
