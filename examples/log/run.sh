#!/bin/sh
# A log of three days. Its operator publishes the checkpoint of the whole log each evening, with a proof of consistency:
# the lines of the checkpoint before still stand at the head of the log. Later a dishonest operator tampers with a line.
. "$(dirname -- "$0")/../parties.sh"

# The checkpoint of a log.
seal() {
  fohlazu seal --origin ledger.example "$1"
}

# The log on each evening. The days begin at the lines 1, 6 and 10.
cat "$here/monday.txt" > monday
cat "$here/monday.txt" "$here/tuesday.txt" > tuesday
cat "$here/monday.txt" "$here/tuesday.txt" "$here/wednesday.txt" > wednesday

say 'Each evening the operator publishes the checkpoint of the log.'
for day in monday tuesday wednesday; do
  seal "$day" > "$day.checkpoint"
done
cat monday.checkpoint

say 'With a new checkpoint comes a proof that the old lines stand. A witness is sent the same text.'
fohlazu prove-consistency monday.checkpoint tuesday.checkpoint tuesday -o monday-tuesday
fohlazu prove-consistency tuesday.checkpoint wednesday.checkpoint wednesday -o tuesday-wednesday
cat monday-tuesday

say 'A customer keeps one checkpoint, and moves it on by each proof. The log is not needed for it.'
fohlazu verify-consistency monday.checkpoint monday-tuesday -o kept.tuesday
fohlazu verify-consistency kept.tuesday tuesday-wednesday -o kept.wednesday
cat kept.wednesday
cmp kept.wednesday wednesday.checkpoint

say 'Line 3 is proved under the checkpoint of Monday and, later on, under that of Wednesday. It is one line.'
fohlazu prove monday.checkpoint monday 3 > old.proof
fohlazu prove wednesday.checkpoint wednesday 3 > new.proof
fohlazu verify monday.checkpoint old.proof 3
fohlazu verify wednesday.checkpoint new.proof 3

say 'A dishonest operator rewrites line 3, and seals the log on Wednesday. The checkpoint looks as good as any other.'
sed '3s/120$/100/' wednesday > forged
seal forged > forged.checkpoint
fohlazu prove forged.checkpoint forged 3 > forged.proof
fohlazu verify forged.checkpoint forged.proof 3

say 'There is no proof of consistency for it. The program makes none of this log, and that of the true log is refused.'
refused fohlazu prove-consistency monday.checkpoint forged.checkpoint forged
fohlazu prove-consistency monday.checkpoint wednesday.checkpoint wednesday > monday-wednesday
{
  sed '/^$/q' monday-wednesday
  cat forged.checkpoint
} > forged-consistency
refused fohlazu verify-consistency monday.checkpoint forged-consistency

# Tampers with a line of each day by a command of sed, on Wednesday, after the line was sealed. Whoever has the
# checkpoint of its day is told all that a dishonest operator can say: a proof of the line in the forged log, and in one
# of as many lines as the checkpoint has, and that the forged log begins with what was sealed.
tamper() {
  for place in '3 monday' '7 tuesday' '11 wednesday'; do
    line="${place% *}"
    day="${place#* }"
    sed "$line$2" wednesday > forged
    head -n "$(wc -l < "$day")" forged > begin
    seal forged > forged.checkpoint
    seal begin > begin.checkpoint
    {
      refused fohlazu prove "$day.checkpoint" forged "$line"
      fohlazu prove begin.checkpoint begin "$line" > proof
      refused fohlazu verify "$day.checkpoint" proof "$line"
      if [ "$day" != wednesday ]; then
        refused fohlazu prove-consistency "$day.checkpoint" forged.checkpoint forged
        fohlazu prove-consistency begin.checkpoint forged.checkpoint forged > consistency
        refused fohlazu verify-consistency "$day.checkpoint" consistency
      fi
    } > reasons
    echo "line $line, of $day, $1: $(grep -c '^fohlazu: ' reasons) of $(grep -c '' reasons) answers refused"
  done
}

say 'A line of each day is rewritten, dropped, inserted or moved, before the last checkpoint.' \
  'All that is said is refused.'
tamper rewritten 's/$/0/'
tamper dropped 'd'
tamper inserted 'i 2026-11-23 08:00 account 4 receives 1000'
tamper moved '{N;s/\(.*\)\n\(.*\)/\2\n\1/}'

say 'What no proof says: that all are shown one checkpoint. Here are two of Wednesday, each consistent with Tuesday.'
{
  cat tuesday
  sed 's/ pays 99$/ pays 98/' "$here/wednesday.txt"
} > other
seal other > other.checkpoint
fohlazu prove-consistency tuesday.checkpoint other.checkpoint other > tuesday-other
fohlazu verify-consistency tuesday.checkpoint tuesday-other

say 'So customers compare their checkpoints. Two of one log and one size, with two roots, are evidence against it.'
refused fohlazu prove-consistency wednesday.checkpoint other.checkpoint other
