/* Makes calls whose answers no program of examples/ shows: refusals that leave what is handed over as it was, sizes at
 * the limit, and each text in buffers of each length. It stops at the first wrong answer. */
#undef NDEBUG
#include <fohlazu.h>

#include <assert.h>
#include <stddef.h>
#include <string.h>

static const uint64_t LIMIT = (uint64_t)1 << 62;

/* SHA-256 of nothing, by FIPS 180-4. */
static const uint8_t EMPTY_ROOT[32] = {0xe3, 0xb0, 0xc4, 0x42, 0x98, 0xfc, 0x1c, 0x14, 0x9a, 0xfb, 0xf4,
                                       0xc8, 0x99, 0x6f, 0xb9, 0x24, 0x27, 0xae, 0x41, 0xe4, 0x64, 0x9b,
                                       0x93, 0x4c, 0xa4, 0x95, 0x99, 0x1b, 0x78, 0x52, 0xb8, 0x55};

static void try_leaf_hashes(void) {
  const uint8_t bytes[5] = "12345";
  const size_t lengths[3] = {2, 0, 3}, few[2] = {2, 2}, great[2] = {SIZE_MAX, 6};
  uint8_t leaves[4][32], before[4][32], leaf[32];
  memset(leaves, 7, sizeof leaves);
  memcpy(before, leaves, sizeof leaves);
  assert(fohlazu_leaf_hashes(bytes, 5, lengths, 3, leaves, 2) == FOHLAZU_WRONG_COUNT);
  assert(fohlazu_leaf_hashes(bytes, 5, lengths, 3, leaves, 4) == FOHLAZU_WRONG_COUNT);
  assert(fohlazu_leaf_hashes(bytes, 4, lengths, 3, leaves, 3) == FOHLAZU_WRONG_LENGTHS);
  assert(fohlazu_leaf_hashes(bytes, 5, few, 2, leaves, 2) == FOHLAZU_WRONG_LENGTHS);
  /* These add up to 5, but for what 64 bits do not hold. */
  assert(fohlazu_leaf_hashes(bytes, 5, great, 2, leaves, 2) == FOHLAZU_WRONG_LENGTHS);
  assert(memcmp(leaves, before, sizeof leaves) == 0);

  assert(fohlazu_leaf_hashes(bytes, 0, lengths, 0, leaves, 0) == FOHLAZU_OK);
  assert(memcmp(leaves, before, sizeof leaves) == 0);
  assert(fohlazu_leaf_hashes(bytes, 5, lengths, 3, leaves, 3) == FOHLAZU_OK);
  fohlazu_leaf_hash(bytes, 2, leaf);
  assert(memcmp(leaves[0], leaf, 32) == 0);
  fohlazu_leaf_hash(bytes, 0, leaf);
  assert(memcmp(leaves[1], leaf, 32) == 0);
  fohlazu_leaf_hash(bytes + 2, 3, leaf);
  assert(memcmp(leaves[2], leaf, 32) == 0);
  assert(memcmp(leaves[3], before[3], 32) == 0);
}

static void try_logs(void) {
  struct fohlazu_frontier log = {0}, before;
  uint8_t leaf[32], root[32], kept[32];
  assert(sizeof log == 8 + 62 * 32 && offsetof(struct fohlazu_frontier, digests) == 8);
  assert(fohlazu_log_root(&log, root) == FOHLAZU_OK && memcmp(root, EMPTY_ROOT, 32) == 0);
  memset(leaf, 1, 32);
  assert(fohlazu_log_push(&log, leaf) == FOHLAZU_OK && log.size == 1);
  assert(fohlazu_log_root(&log, root) == FOHLAZU_OK && memcmp(root, leaf, 32) == 0);

  /* The greatest frontiers, with a digest for each of 62 ones, and with one. */
  memset(&log, 9, sizeof log);
  log.size = LIMIT - 1;
  assert(fohlazu_log_root(&log, root) == FOHLAZU_OK);
  assert(fohlazu_log_push(&log, leaf) == FOHLAZU_OK && log.size == LIMIT);
  assert(fohlazu_log_root(&log, root) == FOHLAZU_OK && memcmp(root, log.digests[0], 32) == 0);
  memcpy(kept, root, 32);
  for (int k = 0; k < 3; k++) {
    log.size = k == 0 ? LIMIT : k == 1 ? LIMIT + 1 : UINT64_MAX;
    before = log;
    assert(fohlazu_log_push(&log, leaf) == FOHLAZU_SIZE_TOO_LARGE);
    assert(memcmp(&log, &before, sizeof log) == 0);
    assert(fohlazu_log_root(&log, root) == (k == 0 ? FOHLAZU_OK : FOHLAZU_SIZE_TOO_LARGE));
    assert(memcmp(root, kept, 32) == 0);
  }
}

static void try_texts(void) {
  const int other[] = {-1, 15, -2147483647 - 1, 2147483647};
  char whole[FOHLAZU_TEXT_SIZE], none[FOHLAZU_TEXT_SIZE], text[FOHLAZU_TEXT_SIZE];
  assert(fohlazu_error_text(FOHLAZU_OUT_OF_MEMORY, whole, sizeof whole) == strlen("out of memory"));
  assert(strcmp(whole, "out of memory") == 0);
  fohlazu_error_text(other[0], none, sizeof none);
  for (int k = 1; k < 4; k++) {
    fohlazu_error_text(other[k], whole, sizeof whole);
    assert(strcmp(whole, none) == 0);
  }
  for (int status = 0; status < 15; status++) {
    const size_t length = fohlazu_error_text(status, whole, sizeof whole);
    assert(length == strlen(whole) && length < FOHLAZU_TEXT_SIZE && strcmp(whole, none) != 0);
    for (size_t room = 0; room < sizeof text; room++) {
      memset(text, '#', sizeof text);
      assert(fohlazu_error_text(status, text, room) == length);
      const size_t kept = room <= length ? room - (room > 0) : length;
      assert(memcmp(text, whole, kept) == 0 && (room == 0 || text[kept] == 0));
      for (size_t k = kept + (room > 0); k < sizeof text; k++) {
        assert(text[k] == '#');
      }
    }
  }
}

int main(void) {
  try_leaf_hashes();
  try_logs();
  try_texts();
  return 0;
}
