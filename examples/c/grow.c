/* Grows a log by entries, and prints its root:
 *
 *     grow ENTRY..
 *
 * A log that goes on later is kept as its struct fohlazu_frontier. The status is that of the call that refuses, if one
 * does, and 100 where there are too many entries. */
#include <fohlazu.h>

#include <stdio.h>
#include <string.h>

enum { MOST_ENTRIES = 1000, MOST_BYTES = 100000, WRONG_WORDS = 100 };

int main(int count, char **words) {
  static uint8_t bytes[MOST_BYTES], leaves[MOST_ENTRIES][32];
  static size_t lengths[MOST_ENTRIES];
  /* All zeros are the log of no entries. */
  static struct fohlazu_frontier log;
  uint8_t root[32];
  size_t entries = 0, bytes_length = 0;
  for (int k = 1; k < count; k++) {
    const size_t length = strlen(words[k]);
    if (entries == MOST_ENTRIES || length > MOST_BYTES - bytes_length) {
      fputs("grow: there are too many entries\n", stderr);
      return WRONG_WORDS;
    }
    memcpy(bytes + bytes_length, words[k], length);
    bytes_length += length;
    lengths[entries++] = length;
  }

  int status = fohlazu_leaf_hashes(bytes, bytes_length, lengths, entries, leaves, entries);
  for (size_t k = 0; status == FOHLAZU_OK && k < entries; k++) {
    status = fohlazu_log_push(&log, leaves[k]);
  }
  if (status == FOHLAZU_OK) {
    status = fohlazu_log_root(&log, root);
  }
  if (status != FOHLAZU_OK) {
    char text[FOHLAZU_TEXT_SIZE];
    fohlazu_error_text(status, text, sizeof text);
    fprintf(stderr, "grow: %s\n", text);
    return status;
  }
  for (int k = 0; k < 32; k++) {
    printf("%02x", root[k]);
  }
  printf("\n");
  return status;
}
