#!/usr/bin/env bash
# Runs the recipes of docs/SCALING.md, compares what each writes with the answers of one process, byte for byte, and prints the
# seconds that each took.
#
#   scale.sh [--program build/fixed_tool] [--bytes 200000000] [--parts N] [RECIPE..]
#
# Recipes: split, filter, parallel, ssh, slurm; all of them where none is named. A recipe whose tools are not on the machine is
# passed over with a word. `ssh` makes three network namespaces, and `slurm` starts a controller and a node: both need root.
set -u
cd "$(dirname "$0")/.." || exit 2
program=build/fixed_tool bytes=200000000 parts=$(nproc) recipes=()
while [ $# -gt 0 ]; do
  case $1 in
    --program) program=$2; shift 2 ;;
    --bytes) bytes=$2; shift 2 ;;
    --parts) parts=$2; shift 2 ;;
    *) recipes+=("$1"); shift ;;
  esac
done
[ ${#recipes[@]} -gt 0 ] || recipes=(split filter parallel ssh slurm)
[ -x "$program" ] || { echo "$program is not there: make build" >&2; exit 2; }
program=$(realpath "$program")
mapper=$(realpath scale/as_mapper)
folder=$(mktemp -d) && chmod 755 "$folder"
trap 'stop_hosts; stop_slurm; rm -rf "$folder"' EXIT
wrong=0

has() { command -v "$1" >/dev/null 2>&1 || { echo "$2: passed over, since $1 is not on this machine"; return 1; }; }

# An input of at least so many bytes: the bench's lines, again and again.
make_input() {
  python3 bench/generate.py typical --lines 200000 >"$folder/some"
  python3 bench/generate.py radix --lines 100000 >>"$folder/some"
  : >"$folder/input"
  while [ "$(stat -c %s "$folder/input")" -lt "$bytes" ]; do
    cat "$folder/some" >>"$folder/input"
  done
}

# timed NAME COMMAND..: runs a recipe that writes to $folder/output.
timed() {
  local name=$1 begin end
  shift
  rm -f "$folder/output"
  begin=$(date +%s.%N)
  "$@" || { echo "$name: FAILED with status $?"; wrong=1; return; }
  end=$(date +%s.%N)
  if cmp -s "$folder/one" "$folder/output"; then
    awk -v name="$name" -v a="$begin" -v b="$end" 'BEGIN { printf "%-34s %6.2f s, the same bytes\n", name, b - a }'
  else
    echo "$name: OTHER BYTES than one process writes"
    wrong=1
  fi
}

one_process() { "$mapper" "$program" <"$folder/input" >"$folder/output"; }

# Each part is cut out by a split of its own, so that all parts run at once.
run_split() {
  local part ended=0
  for part in $(seq "$parts"); do
    split --number="l/$part/$parts" "$folder/input" | "$mapper" "$program" >"$folder/part.$part" &
  done
  for part in $(seq "$parts"); do wait -n || ended=1; done
  for part in $(seq "$parts"); do cat "$folder/part.$part"; done >"$folder/output"
  return "$ended"
}

# One split hands a part after the other to a filter: one process at a time, each with a part of the input.
run_filter() {
  export program mapper folder
  split --number="l/$parts" --suffix-length=4 --filter='"$mapper" "$program" >"$folder/$FILE"' "$folder/input" filtered. || return
  cat "$folder"/filtered.* >"$folder/output"
}

run_parallel() {
  parallel --will-cite --pipepart --block -1 --keep-order --jobs "$parts" -a "$folder/input" "$mapper" "$program" >"$folder/output"
}

# ---- hosts of our own, each a network namespace with a server for ssh

hosts="10.77.0.1 10.77.0.2 10.77.0.3"

start_hosts() {
  local at=0 host
  ip link add lomdeqash0 type bridge && ip addr add 10.77.0.254/24 dev lomdeqash0 && ip link set lomdeqash0 up || return 1
  ssh-keygen -q -t ed25519 -N '' -f "$folder/key" && ssh-keygen -q -t ed25519 -N '' -f "$folder/host" || return 1
  mkdir -p /run/sshd
  cp "$folder/key.pub" "$folder/authorized"
  chmod 644 "$folder/authorized"
  for host in $hosts; do
    at=$((at + 1))
    ip netns add "lomdeqash$at" && ip link add "lom$at" type veth peer name eth0 netns "lomdeqash$at" || return 1
    ip link set "lom$at" master lomdeqash0 up
    ip netns exec "lomdeqash$at" ip addr add "$host/24" dev eth0
    ip netns exec "lomdeqash$at" ip link set eth0 up
    ip netns exec "lomdeqash$at" ip link set lo up
    ip netns exec "lomdeqash$at" /usr/sbin/sshd -h "$folder/host" -o AuthorizedKeysFile="$folder/authorized" -o StrictModes=no \
      -o PidFile="$folder/sshd.$at" -o UsePAM=no -o MaxStartups=100 || return 1
  done
}

stop_hosts() {
  local pid
  for pid in "$folder"/sshd.*; do [ -f "$pid" ] && kill "$(cat "$pid")" 2>/dev/null; done
  for at in 1 2 3; do ip netns del "lomdeqash$at" 2>/dev/null; done
  ip link del lomdeqash0 2>/dev/null
}

# The input is cut here and sent over; each host answers, and the answers come back in order.
run_ssh() {
  local login="" host
  for host in $hosts; do login="$login${login:+,}2/root@$host"; done
  parallel --will-cite --ssh "ssh -q -i $folder/key -o StrictHostKeyChecking=no -o UserKnownHostsFile=/dev/null" --sshlogin "$login" \
    --pipepart --block -1 --keep-order -a "$folder/input" "$mapper" "$program" >"$folder/output"
}

# ---- one node of Slurm on this machine

slurm_is_up=""

start_slurm() {
  [ -s /etc/munge/munge.key ] || dd if=/dev/urandom of=/etc/munge/munge.key bs=1 count=1024 status=none
  chown munge: /etc/munge/munge.key && chmod 400 /etc/munge/munge.key
  mkdir -p /run/munge && chown munge: /run/munge
  pgrep -x munged >/dev/null || runuser -u munge -- munged || return 1
  cat >"$folder/slurm.conf" <<END
ClusterName=lomdeqash
SlurmctldHost=$(hostname -s)
SlurmUser=root
AuthType=auth/munge
StateSaveLocation=$folder/state
SlurmdSpoolDir=$folder/spool
SlurmctldPidFile=$folder/slurmctld.pid
SlurmdPidFile=$folder/slurmd.pid
SlurmctldLogFile=$folder/slurmctld.log
SlurmdLogFile=$folder/slurmd.log
ProctrackType=proctrack/linuxproc
TaskPlugin=task/none
SchedulerType=sched/builtin
SelectType=select/cons_tres
SelectTypeParameters=CR_CPU
ReturnToService=2
NodeName=$(hostname -s) CPUs=$(nproc) State=UNKNOWN
PartitionName=all Nodes=ALL Default=YES MaxTime=INFINITE State=UP
END
  mkdir -p "$folder/state" "$folder/spool"
  export SLURM_CONF=$folder/slurm.conf
  slurm_is_up=yes
  slurmctld -f "$SLURM_CONF" && slurmd -f "$SLURM_CONF" || return 1
  for _ in $(seq 30); do
    sinfo -h -o %T 2>/dev/null | grep -q idle && return 0
    sleep 1
  done
  return 1
}

# Ends only the two that were started here, by the numbers that they wrote down.
stop_slurm() {
  local daemon
  [ -n "$slurm_is_up" ] || return 0
  for daemon in slurmd slurmctld; do
    [ -f "$folder/$daemon.pid" ] && kill "$(cat "$folder/$daemon.pid")" 2>/dev/null
  done
  sleep 1
  slurm_is_up=""
}

# An array job: task K answers part K. `--wait` ends with the greatest status of a task.
run_slurm() {
  cat >"$folder/job" <<END
#!/bin/sh
split --number="l/\$SLURM_ARRAY_TASK_ID/$parts" "$folder/input" >"$folder/in.\$SLURM_ARRAY_TASK_ID" || exit
"$mapper" "$program" <"$folder/in.\$SLURM_ARRAY_TASK_ID" >"$folder/task.\$SLURM_ARRAY_TASK_ID"
END
  sbatch --quiet --wait --array="1-$parts" --output=/dev/null "$folder/job" >/dev/null || return
  for part in $(seq "$parts"); do cat "$folder/task.$part"; done >"$folder/output"
}

make_input
echo "$(stat -c %s "$folder/input") bytes, $parts parts"
: >"$folder/one"
one_process && mv "$folder/output" "$folder/one"
timed "one process" one_process
for recipe in "${recipes[@]}"; do
  case $recipe in
    split) timed "split, a process for each part" run_split ;;
    filter) timed "split --filter, one after another" run_filter ;;
    parallel) has parallel parallel && timed "parallel --pipepart" run_parallel ;;
    ssh)
      has parallel ssh && has /usr/sbin/sshd ssh && has ip ssh || continue
      if start_hosts; then timed "parallel over ssh, three hosts" run_ssh; else echo "ssh: passed over, since no hosts can be made here"; fi
      stop_hosts ;;
    slurm)
      has slurmctld slurm && has slurmd slurm && has munged slurm || continue
      if start_slurm; then timed "a Slurm array job" run_slurm; else echo "slurm: passed over, since it does not start here"; fi
      stop_slurm ;;
    *) echo "$recipe is no recipe" >&2; exit 2 ;;
  esac
done
exit "$wrong"
