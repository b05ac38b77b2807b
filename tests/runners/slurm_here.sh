#!/bin/bash
# Brings up a whole Slurm on this one machine for tests: munged, slurmctld and slurmd, on 127.0.0.1 alone.
#
#   slurm_here.sh start DIR [NODES [CPUS]]    in the new folder DIR; 1 node of 4 processors, or NODES of CPUS each, named
#                                             here1, here2, ..
#   eval "$(slurm_here.sh env DIR)"           from here on sbatch, squeue, scancel, scontrol and srun speak to it
#   slurm_here.sh stop DIR                    cancels its jobs, ends its daemons, and removes DIR
#
# Packages: apt-get install --no-install-recommends slurm-wlm munge. Where they are missing the status is 77, and the caller
# skips and says so. It needs root, and no systemd, cgroups or database: sacct has nothing, and `scontrol show job` tells of a
# job for 5 minutes after its end. `scontrol update NodeName=here2 State=DOWN Reason=test` fails a node, which comes back by
# itself; its tasks run again a minute later. start and stop take seconds, and on a machine that is busy four minutes at the most;
# what nobody stops is stopped after SLURM_HERE_LIFE seconds (3600).
set -u
export PATH=$PATH:/usr/sbin:/sbin
die() { echo "slurm_here.sh: $*" >&2; exit 1; }
# No zombie, and no other process of that number.
alive() { tr '\0' ' ' 2>/dev/null < "/proc/$1/cmdline" | grep -qF -- "$dir"; }
live() {
  for f in "$dir"/pids/*; do [ -e "$f" ] && [ "${f##*/}" != $$ ] && alive "${f##*/}" && echo "${f##*/}"; done
  { # tasks that outlived their node
    grep -lzFx "SLURM_CONF=$SLURM_CONF" /proc/[0-9]*/environ | xargs -r grep -lz '^SLURMD_NODENAME='
    for f in $(find /proc/[0-9]*/exe -lname '*/slurmstepd*'); do [ "$(readlink "${f%exe}cwd")" = "$dir" ] && echo "$f"; done
  } 2>/dev/null | cut -d/ -f3
}
within() { local end=$((SECONDS + $1)); shift; until "$@"; do [ $SECONDS -lt $end ] || return 1; sleep 0.1; done; }
launch() { (cd "$dir" && exec setsid "$@" >> "$dir/log" 2>&1 < /dev/null) & : > "$dir/pids/$!"; }
ready() { [ "$(timeout 5 sinfo -h -N -t idle -o %N 2>/dev/null | wc -l)" = "$nodes" ]; }
quiet() { [ -z "$(timeout 5 squeue -h 2>/dev/null)" ]; }
gone() { [ -z "$(live)" ]; }
taken() { for p in $(seq "$1" $(($1 + nodes))); do (: < "/dev/tcp/127.0.0.1/$p") 2>/dev/null && return; done; false; }
stop() {
  [ -d "$dir/pids" ] || die "nothing of mine in $dir"
  gone || { timeout 5 scancel --partition=here; within 6 quiet; timeout 5 scontrol shutdown; } 2>/dev/null
  for signal in TERM KILL; do gone || { kill -$signal $(live); within 30 gone; }; done 2>/dev/null
  rm -rf "$dir"
}

[ $# -ge 2 ] || { sed -n '4,7s/^# *//p' "$0" >&2; exit 2; }
dir=$(realpath -m -- "$2") nodes=${3:-1} cpus=${4:-4} host=$(hostname -s)
export SLURM_CONF=$dir/slurm.conf
case $1 in env) echo "export SLURM_CONF=$SLURM_CONF"; exit ;; stop) stop; exit ;; start) ;; *) die "start, env or stop" ;; esac

for tool in munged slurmctld slurmd sbatch; do
  command -v $tool > /dev/null || { echo "slurm_here.sh: no $tool" >&2; exit 77; }
done
[ "$(id -u)" = 0 ] || die "needs root"
[[ $dir =~ ^[A-Za-z0-9/._-]{2,80}$ ]] || die "the folder's name is longer than 80, or has other signs than A-Z a-z 0-9 / . _ -"
[ -z "$(ls -A "$dir" 2>/dev/null)" ] && mkdir -p "$dir"/{state,pids} && chmod 755 "$dir" || die "$dir is not a new folder"
(umask 077; head -c 128 /dev/urandom > "$dir/munge.key")
port=$((20000 + RANDOM % 12000)); while taken $port; do port=$((20000 + RANDOM % 12000)); done
memory=$(awk -v n="$nodes" '/^MemTotal/ { print int($2 / 1024 / n) }' /proc/meminfo)
cat > "$SLURM_CONF" <<END
ClusterName=here
SlurmctldHost=$host(127.0.0.1)
SlurmctldPort=$port
SlurmctldPidFile=$dir/slurmctld.pid
SlurmdPidFile=$dir/%n.pid
StateSaveLocation=$dir/state
SlurmdSpoolDir=$dir/spool-%n
AuthInfo=socket=$dir/munge.sock,cred_expire=60
CommunicationParameters=NoInAddrAny,NoCtldInAddrAny
SlurmdParameters=config_overrides
ProctrackType=proctrack/linuxproc
TaskPlugin=task/none
SelectType=select/cons_tres
SelectTypeParameters=CR_CPU_Memory
DefMemPerCPU=$((memory / cpus))
JobAcctGatherType=jobacct_gather/linux
JobAcctGatherFrequency=1
JobAcctGatherParams=OverMemoryKill
SchedulerParameters=batch_sched_delay=0,sched_interval=1
KillWait=2
ReturnToService=2
MessageTimeout=60
BatchStartTimeout=120
MailProg=/bin/true
$(for i in $(seq "$nodes"); do
    echo "NodeName=here$i NodeHostname=$host NodeAddr=127.0.0.1 Port=$((port + i)) CPUs=$cpus RealMemory=$memory"
  done)
PartitionName=here Nodes=ALL Default=YES
END
launch bash -c 'sleep "$1" & trap "kill $!; exit" TERM; wait; exec "$2" stop "$3"' \
  watch "${SLURM_HERE_LIFE:-3600}" "$(realpath "$0")" "$dir"
launch munged -F --key-file="$dir/munge.key" --socket="$dir/munge.sock" --pid-file="$dir/munged.pid" \
  --log-file="$dir/munged.log" --seed-file="$dir/seed"
within 60 test -S "$dir/munge.sock"
launch slurmctld -D -f "$SLURM_CONF"
for i in $(seq "$nodes"); do launch slurmd -D -N "here$i" -f "$SLURM_CONF"; done
within 200 ready || { tail -n 20 "$dir/log" >&2; stop; die "the nodes did not come up"; }
