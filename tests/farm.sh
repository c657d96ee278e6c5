#!/bin/sh
# The farm: the example animation in ranges of frames, by GNU parallel and by a job array of a real Slurm on the loopback address.
# Every frame is compared with that of one run. Slurm has its configuration, key and state in this test's folder, and ends with it.
set -eu
# shellcheck source=lib/results
. "$TESTS/lib/results"

here=$PWD
home=${TESTS%/*}
renice -n 10 -p $$ >/dev/null 2>&1 || true

# folder NAME: goes to an empty folder with the examples.
folder() {
    mkdir -p "$here/$1/examples"
    cp "$home"/examples/balls.pov "$home"/examples/balls.ini "$here/$1/examples/"
    cd "$here/$1"
}

# ended WHAT..: the status of a command, whose messages are kept.
ended() {
    status=0
    "$@" >"$here/said" 2>&1 || status=$?
}

# same NAME FOLDER: whether the folder has each frame of the one run, with its bytes, and no other picture.
same() {
    differ=
    for frame in "$here"/one/examples/*.ppm; do
        cmp -s "$frame" "$here/$2/examples/${frame##*/}" || differ="$differ ${frame##*/}"
    done
    equal "$1" "48 pictures, that differ:" "$(find "$here/$2" -name '*.ppm' | wc -l) pictures, that differ:$differ"
}

# A program that stands in for povfix: it notes each range that it is called for, and ends the range from frame N with the status in
# the first line of the file fault-N, which is gone then.
cat >"$here/stand-in" <<'END'
#!/bin/sh
for word; do
    case $word in
        +SF*) from=${word#+SF} ;;
        +EF*) to=${word#+EF} ;;
    esac
done
echo "$from $to" >>calls
[ -s "fault-$from" ] || exit 0
status=$(head -n 1 "fault-$from")
sed -i 1d "fault-$from"
exit "$status"
END
chmod +x "$here/stand-in"

# faults FOLDER: goes to a folder where of four ranges of six frames the second fails once, the third always with a mistake in the words,
# and the last always with too little memory.
faults() {
    mkdir "$here/$1"
    cd "$here/$1"
    echo 7 >fault-7
    printf '2\n2\n2\n2\n' >fault-13
    printf '9\n9\n9\n9\n' >fault-19
}

# called NAME: whether the stand-in was called as often as the statuses of 'faults' ask for.
called() {
    equal "$1" '1 1-6, 2 7-12, 1 13-18, 3 19-24,' "$(sort -n calls | uniq -c | awk '{ printf "%s%d %d-%d,", (NR > 1 ? " " : ""), $1, $2, $3 }')"
}

have_parallel='' have_slurm=yes
if parallel --version 2>/dev/null | grep -q '^GNU parallel'; then have_parallel=yes; fi
for tool in munged slurmctld slurmd sbatch; do
    command -v "$tool" >/dev/null || have_slurm=
done
[ -n "$have_parallel" ] || skipped 'the farm by GNU parallel' 'it is not installed'
[ -n "$have_slurm" ] || skipped 'the farm by Slurm' 'munged, slurmctld, slurmd or sbatch is not installed'
if [ -z "$have_parallel$have_slurm" ]; then exit; fi

# Pictures so large that a frame takes a tenth of a second: a task can be caught half-way then, and all of them take little.
folder one
for wide in 16 24 32 48 64 96 128 192 256 384 512; do
    sides="+W$wide +H$((wide * 3 / 4))"
    before=$(date +%s%N)
    # shellcheck disable=SC2086 # two words
    ended "$POVFIX" examples/balls.ini $sides +SF1 +EF1
    after=$(date +%s%N)
    case $before in *[!0-9]*) break ;; esac
    if [ "$status" != 0 ] || [ $((after - before)) -gt 100000000 ]; then break; fi
done
# shellcheck disable=SC2086
ended "$POVFIX" examples/balls.ini $sides
equal "one run renders the animation ($sides)" '0 48 ' "$status $(find examples -name '*.ppm' | wc -l) $(cat "$here/said")"
if [ "$status" != 0 ]; then exit; fi

if [ -n "$have_parallel" ]; then
    export PARALLEL='--jobs 2 --will-cite' PARALLEL_HOME="$here/parallel-home"
    mkdir "$PARALLEL_HOME"
    folder parallel
    # shellcheck disable=SC2086
    ended timeout 100 "$home/examples/farm-parallel" 1 48 7 examples/balls.ini $sides
    equal 'GNU parallel renders the animation' '0 ' "$status $(cat "$here/said")"
    same 'its frames are those of one run' parallel
    faults parallel-faults
    ended env POVFIX="$here/stand-in" timeout 60 "$home/examples/farm-parallel" 1 24 6 "a 'word"
    called 'GNU parallel tries ranges again as their statuses say'
    holds 'and says why' "$status $(cat "$here/said")" 'frames 7 to 12: ended with status 7, try 1 of 3' \
        'frames 13 to 18: ended with status 2, and' 'frames 19 to 24: ended with status 9, try 3 of 3'
    equal 'it ends with the status of a range that is not done' 2 "$status"
    ended timeout 20 "$home/examples/farm-parallel" 1 24
    equal 'without its words it tells them' 1 "$status"
fi
[ -n "$have_slurm" ] || exit 0

# end_process NUMBER: ends a daemon of this test, in five seconds at most.
end_process() {
    kill "$1" 2>/dev/null || return 0
    for _ in $(seq 50); do
        kill -0 "$1" 2>/dev/null || return 0
        sleep 0.1
    done
    kill -9 "$1" 2>/dev/null || true
}

# jobs_end SECONDS: waits until no job is left.
jobs_end() {
    for _ in $(seq $(($1 * 2))); do
        if [ -z "$(squeue --noheader 2>/dev/null || echo unknown)" ]; then return 0; fi
        sleep 0.5
    done
    return 1
}

daemons=
end_slurm() {
    cd "$here"
    if [ -n "$daemons" ]; then
        scancel --user="$(id -un)" --quiet 2>/dev/null || true
        jobs_end 10 || true
    fi
    for process in $daemons; do
        end_process "$process"
    done
    daemons=
}
trap end_slurm EXIT
trap 'exit 130' INT
trap 'exit 143' TERM HUP

mkdir "$here/slurm" "$here/slurm/state" "$here/slurm/spool"
cd "$here/slurm"
chmod 755 .
(umask 077 && head -c 1024 /dev/urandom >key)
host=$(uname -n)
host=${host%%.*}
user=$(id -un)
port=$((20000 + $$ % 10000 * 2))
cat >slurm.conf <<END
ClusterName=farm
SlurmctldHost=$host(127.0.0.1)
SlurmctldPort=$port
SlurmdPort=$((port + 1))
SlurmUser=$user
SlurmdUser=$user
AuthType=auth/munge
AuthInfo=socket=$PWD/socket,cred_expire=5
CryptoType=crypto/munge
StateSaveLocation=$PWD/state
SlurmdSpoolDir=$PWD/spool
SlurmctldPidFile=$PWD/slurmctld.pid
SlurmdPidFile=$PWD/slurmd.pid
ProctrackType=proctrack/linuxproc
TaskPlugin=task/none
MpiDefault=none
KillWait=2
ReturnToService=2
SchedulerType=sched/backfill
SchedulerParameters=sched_interval=1,sched_min_interval=0,bf_interval=1
SelectType=select/cons_tres
SelectTypeParameters=CR_CPU
NodeName=$host NodeAddr=127.0.0.1 CPUs=2
PartitionName=farm Nodes=$host Default=YES
END
printf 'CgroupPlugin=disabled\n' >cgroup.conf
case $(slurmctld -V) in
    # (older ones don't know the word, and need none)
    *\ 2[012].*) rm cgroup.conf ;;
esac
export SLURM_CONF="$PWD/slurm.conf"
munged --foreground --force --key-file="$PWD/key" --socket="$PWD/socket" --pid-file="$PWD/munged.pid" --log-file="$PWD/munged.log" --seed-file="$PWD/seed" >munged.said 2>&1 &
daemons=$!
for _ in $(seq 50); do
    [ ! -S socket ] || break
    sleep 0.1
done
slurmctld -D -c >slurmctld.said 2>&1 &
daemons="$! $daemons"
slurmd -D -c >slurmd.said 2>&1 &
daemons="$! $daemons"
up=
for _ in $(seq 60); do
    up=$(sinfo --noheader --format=%T 2>/dev/null || true)
    [ "$up" != idle ] || break
    sleep 0.5
done
if [ "$up" != idle ]; then
    skipped 'the farm by Slurm' "it does not start here: $(grep -h -i -e fatal -e error -- *.said munged.log 2>/dev/null | tail -n 1)"
    exit
fi

# submit WORD..: submits the array, and keeps its number.
submit() {
    number=$(sbatch --parsable "$@") || number=none
}

# ends JOB: how a task of the array ended, as Slurm has it.
ends() {
    scontrol show job "$1" 2>/dev/null | sed -n 's/.*JobState=\([A-Z]*\).*/\1/p; s/.*ExitCode=\([0-9]*\):.*/\1/p' | tr '\n' ' '
}

# The animation by eight tasks. The third is cancelled when its first frame of six is there, which is too late on a machine that is fast
# and has much else to do, so a second and a third time are given.
for _ in 1 2 3; do
    folder array
    find examples -name '*.ppm' -exec rm -f {} +
    # shellcheck disable=SC2086
    submit --array=0-7 "$home/examples/farm-slurm" 1 48 6 examples/balls.ini $sides
    for _ in $(seq 1500); do
        [ ! -e examples/balls14.ppm ] || break
        sleep 0.02
    done
    scancel "${number}_2" || true
    jobs_end 60 || break
    if [ ! -e examples/balls18.ppm ]; then break; fi
done
equal 'a task that is cancelled half-way ends so' 'CANCELLED 0 ' "$(ends "${number}_2")"
equal 'its first frames are there, and its last is not' 'yes no' "$([ -e examples/balls13.ppm ] && echo yes) $([ -e examples/balls18.ppm ] || echo no)"
equal 'another task of the array is done' 'COMPLETED 0 ' "$(ends "${number}_5")"
# shellcheck disable=SC2086
submit --array=2 "$home/examples/farm-slurm" 1 48 6 examples/balls.ini $sides
jobs_end 30 || true
equal 'submitted again it is done' 'COMPLETED 0 ' "$(ends "${number}_2")"
same 'the frames of the array are those of one run' array

faults slurm-faults
POVFIX=$here/stand-in
submit --array=0-4 "$home/examples/farm-slurm" 1 24 6 "a 'word"
jobs_end 60 || true
called 'Slurm tries ranges again as their statuses say'
equal 'a range that failed once is done' 'COMPLETED 0 ' "$(ends "${number}_1")"
equal 'a range with a mistake has failed' 'FAILED 2 ' "$(ends "${number}_2")"
equal 'a range that fails each time has failed' 'FAILED 9 ' "$(ends "${number}_3")"
equal 'a task behind the last frame does nothing' 'COMPLETED 0 ' "$(ends "${number}_4")"
end_slurm
left=
for socket in $((port)) $((port + 1)); do
    left="$left$(awk -v port="$(printf ':%04X' "$socket")" 'index($2, port) && $4 == "0A" { print $2 }' /proc/net/tcp 2>/dev/null)"
done
equal 'Slurm is gone' '' "$left"
