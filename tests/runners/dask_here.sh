#!/bin/bash
# Brings up a Dask cluster on this one machine for tests: a scheduler and workers of one thread each, on 127.0.0.1 alone.
#
#   dask_here.sh start DIR [WORKERS]    in the new folder DIR; 4 workers, named here1, here2, ..
#   eval "$(dask_here.sh env DIR)"      from here on distributed.Client() finds it, in /usr/bin/python3
#   dask_here.sh stop DIR               ends the scheduler, the workers and what their tasks started, and removes DIR
#
# It takes Debian's packages, for /usr/bin/python3 and no other Python: apt-get install --no-install-recommends
# python3-distributed python3-dask. Where they are missing the status is 77, and the caller skips and says so.
# A worker has a nanny, which starts another in its place when it is killed: Client().run(os.getpid) has their numbers, and
# run(os.getpid, nanny=True) those of the nannies. What a killed worker had started lives on until stop. Tasks run in DIR, so
# give them whole paths. DASK_DISTRIBUTED__.. and PYTHONPATH count at start. start and stop take seconds, and on a machine that is
# busy four minutes at the most; what nobody stops is stopped after DASK_HERE_LIFE seconds (3600).
set -u
die() { echo "dask_here.sh: $*" >&2; exit 1; }
live() { grep -lzFx "DASK_HERE=$dir" /proc/[0-9]*/environ 2>/dev/null | cut -d/ -f3 | grep -vx $$; }    # no zombies
gone() { [ -z "$(live)" ]; }
within() { local end=$((SECONDS + $1)); shift; until "$@"; do [ $SECONDS -lt $end ] || return 1; sleep 0.1; done; }
launch() { (cd "$dir" && DASK_HERE=$dir exec setsid "$@" >> "$dir/log" 2>&1 < /dev/null) & }
ready() { [ "$(grep -c 'Registered to:' "$dir/log")" -ge "$workers" ]; }
stop() {
  [ -e "$dir/log" ] || die "nothing of mine in $dir"
  for signal in TERM KILL; do gone || { kill -$signal $(live) 2>/dev/null; within 30 gone; }; done
  rm -rf "$dir"
}

[ $# -ge 2 ] || { sed -n '4,6s/^# *//p' "$0" >&2; exit 2; }
dir=$(realpath -m -- "$2") workers=${3:-4} python=/usr/bin/python3
case $1 in
env)
  sed -n 's/^ *"address": "\([^"]*\)".*/export DASK_SCHEDULER_ADDRESS=\1/p' "$dir/scheduler.json" | grep -m 1 . ||
    die "none in $dir" ;;
stop) stop ;;
start)
  $python -c 'import distributed' 2> /dev/null || { echo "dask_here.sh: no package distributed for $python" >&2; exit 77; }
  [ -z "$(ls -A "$dir" 2>/dev/null)" ] && mkdir -p "$dir" && : > "$dir/log" || die "$dir is not a new folder"
  export DASK_TEMPORARY_DIRECTORY=$dir
  unset DASK_SCHEDULER_ADDRESS
  launch bash -c 'sleep "$1" & trap "kill $!; exit" TERM; wait; exec env -u DASK_HERE "$2" stop "$3"' \
    watch "${DASK_HERE_LIFE:-3600}" "$(realpath "$0")" "$dir"
  local_only=(--host 127.0.0.1 --dashboard-address 127.0.0.1:0 --no-dashboard --scheduler-file scheduler.json)
  launch $python -m distributed.cli.dask_scheduler --port 0 "${local_only[@]}"
  for i in $(seq "$workers"); do
    launch $python -m distributed.cli.dask_worker "${local_only[@]}" --name "here$i" --nthreads 1 --nanny --memory-limit 0 \
      --local-directory "$dir" --death-timeout 300
  done
  within 200 ready || { tail -n 20 "$dir/log" >&2; stop; die "the workers did not come up"; } ;;
*) die "start, env or stop" ;;
esac
