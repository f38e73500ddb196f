#!/bin/sh
# A file that two workers of Dask, a cluster engine, seal in 16 parts, beside one process: sh examples/dask/run.sh [MIB]
#
# The file has 64 MiB, less 64000 bytes; MIB, a power of two from 16, makes another. Scheduler and workers run on
# loopback. On a cluster each worker has fohlazu, and reads the file by one name. In a second run a worker is killed by
# SIGKILL in the middle of a part; Dask gives this part to the other, and those whose results are lost.
. "$(dirname -- "$0")/../parties.sh"
needs openssl

mib="${1-64}"
# Dask's profiler looks at the stacks of all threads, and this can stop Python 3.11 for ever.
export DASK_CONFIG="$work/config" DASK_DISTRIBUTED__WORKER__PROFILE__ENABLED=False

# Debian's python3-distributed is for Debian's Python.
for python in python3 /usr/bin/python3; do
  ! "$python" -c 'import distributed' 2> said || break
done
[ ! -s said ] || {
  echo 'distributed of Python is not here' >&2
  exit 77
}

# Scheduler, workers and what they run are a process group, which is killed as one: by its leader, if it is late.
cluster=''
client=''
stop() {
  [ -n "$cluster" ] || return 0
  kill -9 "-$cluster" || kill -9 "$cluster" || true
  [ -z "$client" ] || kill -9 "$client" || true
  wait
  # What the leader leaves is init's, and may be there a moment more.
  for _ in 1 2 3 4 5; do
    ! kill -0 "-$cluster" || sleep 0.2
  done
}

# Seals the parts by the workers, and compares what they are joined to with the checkpoint of one process. With a path,
# a worker is killed. What Dask says of lost connections is no error.
seal_parts() {
  "$python" "$here/parts.py" scheduler "$FOHLAZU" "$work/file" "$((mib * 65536))" "$@" 2> said &
  client=$!
  wait "$client" || fail "Dask does not seal the parts: $(cat said cluster.said)"
  client=
  fohlazu join --origin parts.example part.?? | cmp - checkpoint || fail 'the joined checkpoint is not that of the file'
  echo "$(find . -name 'part.??' | wc -l) parts, joined, have the checkpoint of the file"
  rm part.??
}

say "A file of $mib MiB, less 64000 bytes, made from a seed. One process seals its blocks of 4096 bytes."
stream 'a file' "$((mib * 1048576 - 64000))" > file
timed 'one process' fohlazu seal --origin parts.example --blocks 4096 file -o checkpoint
cat checkpoint

say 'Two workers of Dask seal its parts.'
# shellcheck disable=SC2016 # the inner shell expands its arguments
timeout -s KILL "$((300 + mib))" sh -c '
  "$0" -m distributed.cli.dask_scheduler --host 127.0.0.1 --port 0 --no-dashboard --scheduler-file scheduler &
  for number in 1 2; do
    "$0" -m distributed.cli.dask_worker --scheduler-file scheduler --host 127.0.0.1 --no-dashboard --no-nanny \
      --nthreads 1 --memory-limit 0 --local-directory "space-$number" &
  done
  wait' "$python" > cluster.said 2>&1 &
cluster=$!
seal_parts

say 'Again, and a worker is killed in the middle of part 6.'
seal_parts "$work/killed"
