#!/bin/sh
# A disk image as a storage audit. The storage has the image; the owner keeps its checkpoint and sealed parts, three
# lines for each MiB. Entries are the blocks of the file system, of 4096 bytes.
#
# The blocks of an audit are drawn from a seed that nobody knows before, such as a lottery's numbers of the day;
# anyone can draw them again. Where a sixteenth of the image is lost, 100 blocks miss it with a chance of (15/16)^100,
# less than 0.002.
# shellcheck disable=SC2086 # the numbers that are drawn are separate arguments
. "$(dirname -- "$0")/../parties.sh"
PATH="$PATH:/usr/sbin:/sbin"
needs mke2fs e2fsck openssl

# The numbers of so many blocks, drawn from a seed: four bytes each, modulo the blocks. Blocks are counted from 1.
draw() {
  stream "$1" "$((4 * $2))" | od -A n -v -t u1 -w4 |
    awk '{ print ((($1 * 256 + $2) * 256 + $3) * 256 + $4) % 4096 + 1 }' | paste -s -d ' ' -
}

# Seals each MiB of a file as a part.
seal_parts() {
  for part in $(seq -w 1 16); do
    dd if="$1" bs=1M skip="$((${part#0} - 1))" count=1 2> said | fohlazu seal --part --blocks 4096 - > "$1.$part"
  done
}

say 'The owner makes an image of 16 MiB, with a file system of 4096 blocks, and seals it: as a whole, and each MiB.'
mkdir files
stream 'a file' 12000000 > files/archive
truncate -s 16M image
mke2fs -q -t ext4 -O '^has_journal' -b 4096 -d files image
fohlazu seal --origin image.example --blocks 4096 image > checkpoint
seal_parts image
fohlazu join --origin image.example image.?? | cmp - checkpoint
echo "$(sed -n 2p checkpoint) blocks, in 16 parts"

say 'On Saturday the auditor draws 100 blocks. The first ten:'
seed='28 November: 4 17 19 23 38 44'
drawn="$(draw "$seed" 100)"
echo "$drawn" | cut -d ' ' -f 1-10

say 'The storage answers, and the auditor, who has the checkpoint alone, checks the answer.'
fohlazu prove --blocks 4096 checkpoint image $drawn > answer
fohlazu verify --blocks 4096 checkpoint answer $drawn > found
echo "$(wc -c < found) bytes are proved by $(sed -n 's/^digests //p' answer) digests"

say 'The storage loses MiB 8, inside a file, and has zeros there. The check of the file system finds nothing.'
cp image lost
dd if=/dev/zero of=lost bs=1M seek=7 count=1 conv=notrunc 2> said
e2fsck -f -n lost > said 2>&1 || fail "$(cat said)"
echo 'clean'

say 'The audit finds it: the storage has no answer for these blocks, and one by a seal of its own is refused.'
echo "$drawn" | tr ' ' '\n' | awk '$1 > 1792 && $1 <= 2048' | paste -s -d ' ' -
refused fohlazu prove --blocks 4096 checkpoint lost $drawn
fohlazu seal --origin image.example --blocks 4096 lost > own
fohlazu prove --blocks 4096 own lost $drawn > answer
refused fohlazu verify --blocks 4096 checkpoint answer $drawn

say 'The sealed parts say where the loss is: only that MiB has to be fetched from a backup.'
seal_parts lost
for part in image.??; do
  cmp -s "$part" "lost.${part#image.}" || echo "MiB ${part#image.}"
done
dd if=image of=lost bs=1M skip=7 seek=7 count=1 conv=notrunc 2> said
fohlazu seal --origin image.example --blocks 4096 lost | cmp - checkpoint
echo 'the image has the checkpoint again'
