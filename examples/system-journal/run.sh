#!/bin/sh
# The system's journal as a log. Each night its new entries are appended to a text file, a line each, and this log is
# sealed. The checkpoints and consistency proofs go to another machine, so that an intruder can't rewrite the past.
#
# The journal is a stored one, and grows by the entries of a day. On a machine leave out --file. journalctl prints the
# fields in a random order, hence jq. It isn't called with --cursor-file: where the last entry that was taken is gone,
# that of systemd 252 skips a new one. What is deleted before it is taken is not in the log, and no proof says so.
. "$(dirname -- "$0")/../parties.sh"
PATH="$PATH:/usr/lib/systemd:/lib/systemd"
needs journalctl systemd-journal-remote jq

# The journal gets the entries of a day.
day() {
  systemd-journal-remote --output=system.journal "$here/$1.export" > said 2>&1 || fail "$(cat said)"
}

# Appends the new entries to the log: those after the one with the cursor. The cursor moves last, so that a run that
# stops midway may take entries twice, and leaves none out.
take() {
  cursor="$(cat cursor)"
  journalctl -q -a --file=system.journal ${cursor:+"--cursor=$cursor"} -o json > taken
  jq -c --arg cursor "$cursor" 'select(.__CURSOR != $cursor) |
    [.__REALTIME_TIMESTAMP, ._HOSTNAME, ._SYSTEMD_UNIT, .MESSAGE]' taken > new
  echo "$(wc -l < new) new entries"
  [ -s new ] || return 0
  cat log new > log.next
  mv log.next log
  tail -n 1 taken | jq -r .__CURSOR > cursor.next
  mv cursor.next cursor
}

# What is sealed each night, and published.
seal() {
  fohlazu seal --origin gate.example/journal log -o next
  fohlazu prove-consistency checkpoint next log -o growth
  mv next checkpoint
}

# The other machine goes on from the checkpoint that it keeps.
follow() {
  fohlazu verify-consistency kept growth -o kept.next
  mv kept.next kept
}

say 'On Monday night the log begins.'
: > log
: > cursor
fohlazu seal --origin gate.example/journal log -o checkpoint
day monday
take
cat log
seal
cat checkpoint
cp checkpoint kept

say 'On Tuesday night only what is new is taken. The other machine, which has no log, checks that the log only grew.'
day tuesday
take
seal
follow
cat kept

say 'The journal is vacuumed: it has only the entries of Wednesday. The log has them all.'
rm system.journal
day wednesday
take
seal
follow
echo "$(wc -l < log) entries in the log, $(journalctl -q --file=system.journal -o cat | wc -l) in the journal"

say 'A night without entries has the same checkpoint.'
take
seal
cmp checkpoint kept

say 'Who logged in on Tuesday night? The entry is proved under the checkpoint that the other machine has.'
number="$(grep -n 'Accepted password for root' log | cut -d : -f 1)"
fohlazu prove kept log "$number" -o proof
fohlazu verify kept proof "$number" | tee entry
echo "at $(TZ=UTC date -d "@$(jq -r '.[0][:-6]' entry)" '+%F %T')"

say 'An intruder deletes the entry, or rewrites it, and seals the log again. There is no proof that such a log grew.'
grep -v 'Accepted password for root' log > deleted
sed 's/Accepted password for root from [0-9.]*/Accepted publickey for bert from 192.0.2.18/' log > rewritten
for forged in deleted rewritten; do
  echo '["1795651200000000","gate","cron.service","midnight"]' >> "$forged"
  fohlazu seal --origin gate.example/journal "$forged" -o next
  refused fohlazu prove-consistency kept next "$forged"
done
