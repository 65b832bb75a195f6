#!/bin/sh
# A Slurm of one node on this machine, and an array of eight scenarios, the program of one of which is killed the first
# time; the gathering waits behind the array.
#
#     python/tests/cluster/slurm.sh [MODELS]
#
# Needs slurm-wlm and munge, and root, since slurmd starts tasks for others. Everything listens on 127.0.0.1 alone.
. "$(dirname "$0")/common.sh"
models=${1:-8}
make_mine "$models" 26 22 15
reference
killed_once

state="$work/slurm"
mkdir -p "$state/spool" "$state/save"
chmod 711 "$work"
chmod 755 "$state"
head -c 1024 /dev/urandom > "$state/munge.key"
chmod 400 "$state/munge.key"
munged --foreground --force --key-file="$state/munge.key" --socket="$state/munge.socket" --pid-file="$state/munge.pid" \
    --log-file="$state/munge.log" --seed-file="$state/munge.seed" > "$state/munged.out" 2>&1 &
started="$started $!"
wait_for 20 test -S "$state/munge.socket"

cat > "$state/slurm.conf" <<END
ClusterName=pitplan
SlurmctldHost=$(hostname -s)(127.0.0.1)
SlurmUser=root
AuthType=auth/munge
AuthInfo=socket=$state/munge.socket
CommunicationParameters=NoCtldInAddrAny,NoInAddrAny
SlurmctldPort=16817
SlurmdPort=16818
StateSaveLocation=$state/save
SlurmdSpoolDir=$state/spool
SlurmctldPidFile=$state/slurmctld.pid
SlurmdPidFile=$state/slurmd.pid
SlurmctldLogFile=$state/slurmctld.log
SlurmdLogFile=$state/slurmd.log
ProctrackType=proctrack/linuxproc
TaskPlugin=task/none
JobAcctGatherType=jobacct_gather/none
AccountingStorageType=accounting_storage/none
MpiDefault=none
SelectType=select/cons_tres
SelectTypeParameters=CR_CPU
SlurmdTimeout=60
MinJobAge=3600
NodeName=$(hostname -s) NodeAddr=127.0.0.1 CPUs=${CPUS:-2} State=UNKNOWN
PartitionName=all Nodes=ALL Default=YES MaxTime=INFINITE State=UP
END
SLURM_CONF="$state/slurm.conf"
export SLURM_CONF
slurmctld -D -f "$SLURM_CONF" > "$state/slurmctld.out" 2>&1 &
started="$started $!"
slurmd -D -f "$SLURM_CONF" > "$state/slurmd.out" 2>&1 &
started="$started $!"
idle() { sinfo --noheader --format=%t | grep -qx idle; }
wait_for 60 idle

start=$($pitplan scenarios "$work/project.toml" --out "$work/scenarios" --on slurm --quiet 2>/dev/null)
sh "$start"
ended() { [ -z "$(squeue --noheader)" ]; }
wait_for 300 ended
echo "tasks (state, exit status, restarts):"
scontrol --oneliner show job --details | tr ' ' '\n' |
    awk -F= '/^(ArrayTaskId|JobName|JobState|ExitCode|Restarts)=/ { words = words " " $0 }
             /^ExitCode=/ { print words; words = "" }'
grep -h "tried again" "$work"/scenarios/slurm-*.log
cat "$work/scenarios/gather.log"
compare "$work/scenarios"
