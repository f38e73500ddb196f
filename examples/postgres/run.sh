#!/bin/sh
# A table of PostgreSQL as a signed snapshot. The publisher copies the table out in the order of its key, seals that
# text, and signs the checkpoint. Rows are proved to a customer, who has no database.
#
# In COPY's text format a row is one line: a line feed in a value is printed as \n. The text is the same each time if
# the order, the encoding, the time zone and the style of dates are fixed. The server is the script's own: it listens on
# a socket in the script's folder, and nowhere else.
. "$(dirname -- "$0")/../parties.sh"
for folder in /usr/lib/postgresql/*/bin; do
  PATH="$PATH:$folder"
done

needs initdb pg_ctl pg_dump psql openssl
export PGHOST="$work/server/data" PGPORT=5432 PGUSER=publisher PGDATABASE=postgres
export PGCLIENTENCODING=UTF8 PGTZ=UTC PGDATESTYLE=ISO

# Runs a program of the server. PostgreSQL refuses to run as root, so root runs it as nobody.
server() {
  if [ "$(id -u)" -eq 0 ]; then
    setpriv --reuid=nobody --regid="$(id -g nobody)" --clear-groups "$@"
  else
    "$@"
  fi
}

stop() {
  [ ! -e server/data/postmaster.pid ] || server pg_ctl -D server/data -m immediate stop > said || true
}

# Runs SQL.
sql() {
  psql -X -q -v ON_ERROR_STOP=1 "$@"
}

# The text of the table. The order of the collation "C" is that of bytes, on every machine.
copy_out() {
  sql -c 'COPY (SELECT * FROM prices ORDER BY item COLLATE "C") TO STDOUT'
}

mkdir server
if [ "$(id -u)" -eq 0 ]; then
  needs setpriv
  chmod 711 .
  chown nobody server
fi
server initdb -D server/data -U publisher -A trust -E UTF8 --locale=C -N > said 2>&1 || fail "$(cat said)"
server pg_ctl -D server/data -l server/log -w -o '-k . -h "" -F' start > said 2>&1 || fail "$(cat server/log)"
sql << 'END'
CREATE TABLE prices (item text PRIMARY KEY, name text, note text, price numeric(8,2), since timestamptz);
INSERT INTO prices VALUES
  ('c-2', 'table', NULL, 240, '2026-03-01 09:00+01'),
  ('a-1', 'chair', E'oak\nor beech', 80, '2026-03-01 09:00+01'),
  ('B-7', 'café chair', E'C:\\photos', 95.5, '2026-03-02 00:30+01'),
  ('a-10', 'bench', '', 120, '2026-03-02 08:15+00'),
  ('a-2', 'stool', E'tab\there', 45, '2026-03-01 09:00+01');
END

say 'The publisher copies the table out, in the order of its key, and seals this text: a row is an entry.'
copy_out > prices
cat prices
fohlazu seal --origin prices.example/2026-03 prices -o checkpoint
cat checkpoint

say 'It signs the checkpoint. Its verifier key is known to all, and the customer opens the note by it.'
openssl genpkey -algorithm ed25519 -out key
verifier="$(python3 "$top/share/fohlazu-sign" -p key prices.example/2026-03)"
python3 "$top/share/fohlazu-sign" key < checkpoint > signed
python3 "$top/share/fohlazu-open" "$verifier" < signed > kept
cmp kept checkpoint
echo 'the checkpoint, signed'

say 'Row 3 of the text is proved to the customer: that of item a-10.'
fohlazu prove signed prices 3 -o proof
fohlazu verify kept proof 3

say 'The server may store the rows in another order, and a backup may be restored elsewhere.' \
  'The checkpoint is the same.'
sql -c "UPDATE prices SET price = price WHERE item = 'a-10'"
sql -A -t -c 'SELECT item FROM prices' | paste -s -d ' ' -
copy_out | cmp - prices
sql -c 'CREATE DATABASE restored'
pg_dump | sql -d restored > said
PGDATABASE=restored copy_out | fohlazu seal --origin prices.example/2026-03 - | cmp - checkpoint
echo 'the same checkpoint'

say 'A lower price is refused, and so is another row.'
sed 's/120\.00/110.00/' proof > changed
! cmp -s proof changed || fail 'nothing was changed'
refused fohlazu verify kept changed 3
fohlazu prove signed prices 2 > other
refused fohlazu verify kept other 3
