#!/bin/sh
# A snapshot of a table. The publisher signs the checkpoint of a release with ssh-keygen. Later single rows are proved
# to whoever has the signed checkpoint, without the table.
#
# The table is a CSV file with a row on each line, as most are; a row may be any bytes without a line feed.
. "$(dirname -- "$0")/../parties.sh"
needs ssh-keygen
cp -- "$here/prices-1.csv" "$here/prices-2.csv" .

# Whether the signature of the release is the publisher's, of this checkpoint.
is_signed() {
  ssh-keygen -Y verify -f signers -I publisher -n fohlazu-checkpoint -s checkpoint-1.sig < "$1" > said 2>&1
}

say 'The publisher seals a release of the table, and signs its checkpoint, in a file of its own.'
fohlazu seal --origin 'prices.example/1' prices-1.csv > checkpoint-1
cat checkpoint-1
ssh-keygen -q -t ed25519 -N '' -C publisher -f key
echo "publisher $(cat key.pub)" > signers
ssh-keygen -Y sign -f key -n fohlazu-checkpoint checkpoint-1 2> said
is_signed checkpoint-1 || fail 'the signature is not good'
echo 'signature: good, made by ssh-keygen'

say 'A seller proves row 4 of the file, that of item 3, to a buyer who has the signed checkpoint.'
fohlazu prove checkpoint-1 prices-1.csv 4 > proof
cat proof
fohlazu verify checkpoint-1 proof 4

say 'With line 1, the names of the columns, in one proof.'
fohlazu prove checkpoint-1 prices-1.csv 1 4 > named
fohlazu verify checkpoint-1 named 1 4

say 'A lower price is refused.'
sed 's/^3,chair,80,95$/3,chair,70,95/' proof > changed
refused fohlazu verify checkpoint-1 changed 4

say 'The row of item 2 is no answer about item 3, and shown as that of item 3 it is refused.'
fohlazu prove checkpoint-1 prices-1.csv 3 > other
refused fohlazu verify checkpoint-1 other 4
sed 's/^entry 3 /entry 4 /' other > changed
refused fohlazu verify checkpoint-1 changed 4

say 'A row of the next release is accepted under the checkpoint of that, and refused under this one.'
fohlazu seal --origin 'prices.example/2' prices-2.csv > checkpoint-2
fohlazu prove checkpoint-2 prices-2.csv 4 > other
fohlazu verify checkpoint-2 other 4
refused fohlazu verify checkpoint-1 other 4

say 'There is no row after the last one.'
sed 's/^entry 4 /entry 7 /' proof > changed
refused fohlazu verify checkpoint-1 changed 7

say 'A seller seals a table of its own, by the name of the publisher. Its checkpoint is not signed.'
sed 's/^3,chair,80,95$/3,chair,70,95/' prices-1.csv > own.csv
fohlazu seal --origin 'prices.example/1' own.csv > own-checkpoint
fohlazu prove own-checkpoint own.csv 4 > own-proof
fohlazu verify own-checkpoint own-proof 4
! is_signed own-checkpoint || fail 'the signature is taken for that of another checkpoint'
echo 'signature: that of the release is not of this checkpoint'
