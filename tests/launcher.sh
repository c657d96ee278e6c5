#!/bin/sh
# The launcher: its building, by a command rt that only notes its calls, and how fast it starts the real program.
set -eu
# shellcheck source=lib/results
. "$TESTS/lib/results"

here=$PWD
clone="$here/a clone"
bare=/usr/bin:/bin
export CALLS="$here/calls"

# A clone of four crates, of which the program is made of three.
mkdir -p "$clone" "$here/kit"
cp -- "$POVFIX" "$clone/povfix"
printf '%s\n' '# a line to be passed over' 'povfix_main: middle base' 'unused: base' 'middle: base itoa' 'base:' >"$clone/crates.txt"
for crate in base middle unused povfix_main; do
    mkdir -p "$clone/crates/$crate/src" "$clone/crates/$crate/specs"
    echo >"$clone/crates/$crate/src/lib.rt"
    echo >"$clone/crates/$crate/specs/Lib.antt"
done

# rt, which takes as long as RT_SLEEP says at the crate 'middle', and fails there where RT_FAILS is set.
cat >"$here/kit/rt" <<'END'
#!/bin/sh
crate=$(basename "$PWD")
if [ "$1" = version ]; then
    echo 'rattle-kit-of-tests logic 0'
    exit
fi
echo "$1 $crate" >>"$CALLS"
echo "$2 $3" >"$CALLS.jobs"
if [ "$crate" = middle ]; then
    [ -z "${RT_FAILS-}" ] || { echo 'middle is not proved'; exit 1; }
    sleep "${RT_SLEEP-0}" &
    trap 'kill $!; exit 143' TERM
    echo $$ >"$CALLS.process"
    wait
fi
[ "$1" = run ] || exit 0
mkdir -p out
cp "$(dirname "$0")/program" out/povfix_main
./out/povfix_main +
END
cat >"$here/kit/program" <<'END'
#!/bin/sh
if [ "$*" = + ]; then
    echo 'option fault 7 at word 1' >&2
    exit 1
fi
printf '<%s>' "$@"
pwd
exit 9
END
chmod +x "$here/kit/rt" "$here/kit/program"

# Runs a launcher with the rt of these tests, and notes its status, output and messages.
run() {
    status=0
    PATH=$here/kit:$bare "$@" >"$here/output" 2>"$here/messages" || status=$?
    output=$(cat "$here/output")
    messages=$(cat "$here/messages")
}

calls() {
    tr '\n' ',' <"$CALLS"
    : >"$CALLS"
}

every_call='lib base,lib middle,run povfix_main,'
: >"$CALLS"

run "$clone/povfix" --version
holds 'before the first build --version says so' "$output" 'povfix ' 'commit ' 'not proved yet'
equal 'and builds nothing' '' "$(calls)"

# In a clone with no program and no kit.
if PATH=$bare command -v rt >/dev/null; then
    skipped 'with no kit' 'rt stands among the system programs here'
else
    status=0
    messages=$(PATH=$bare "$clone/povfix" +Ia.pov 2>&1) || status=$?
    equal 'with no kit the status is 125' 125 "$status"
    holds 'with no kit it says what is missing and where it was looked for' "$messages" 'command rt of the Rattle kit' "$bare"
fi
mkdir "$here/other"
printf '#!/bin/sh\necho runtime 1.0\n' >"$here/other/rt"
chmod +x "$here/other/rt"
status=0
messages=$(PATH=$here/other:$bare "$clone/povfix" +Ia.pov 2>&1) || status=$?
holds 'another program of the name rt is told' "$status $messages" 125 "$here/other/rt" 'runtime 1.0'

# A build that fails, and the first that doesn't.
export RT_FAILS=yes
run "$clone/povfix" +Ia.pov
unset RT_FAILS
equal 'a build that fails ends with status 125' 125 "$status"
holds 'and with what rt said' "$messages" 'status 1 at middle' 'middle is not proved' 'build.log'
calls >/dev/null
mkdir "$here/folder"
cd "$here/folder"
run "$clone/povfix" +Ia.pov '' 'two  words' '*' '+O\x'
equal 'the first run builds what the program needs, lowest first' "$every_call" "$(calls)"
holds 'it tells which crate of how many is being proved' "$messages" 'proving base, crate 1 of 3, 0:0' 'proving middle, crate 2 of 3, 0:0' 'proving povfix_main, crate 3 of 3, 0:0'
equal 'it uses every processor' "--jobs $(nproc)" "$(cat "$CALLS.jobs")"
equal 'words are handed on as they are, in the folder of the call' "<+Ia.pov><><two  words><*><+O\\x>$here/folder" "$output"
equal 'the status is the program'"'"'s' 9 "$status"
run "$clone/povfix" --version
holds '--version names program, commit and kit' "$output" 'povfix ' 'commit ' 'proved by rattle-kit-of-tests logic 0'

run "$clone/povfix" --build
equal '--build does nothing where nothing has to be done' '0 ' "$status $output$messages$(calls)"

# Through links.
mkdir "$here/path"
ln -s '../a clone/povfix' "$here/path/first"
ln -s first "$here/path/povfix"
ln -s path "$here/linked path"
status=0
output=$(PATH="$here/linked path:$bare" povfix a) || status=$?
equal 'it is found on the path, through two links and a linked folder' "<a>$here/folder 9" "$output $status"
equal 'it finds its program from a folder below' '<b>' "$(cd "$clone/crates" && ../povfix b | sed 's|>.*|>|')"
equal 'it finds its program where it is named without a folder' '<c>' "$(cd "$clone" && sh povfix c | sed 's|>.*|>|')"
equal 'nothing is built again meanwhile' '' "$(calls)"

# Sources that change. (A file system may tell times apart by a few milliseconds.)
sleep 0.1
echo changed >"$clone/crates/base/specs/Lib.antt"
run "$clone/povfix" a
equal 'after a change it is built again' "$every_call" "$(calls)"
sleep 0.1
rm "$clone/crates/middle/specs/Lib.antt"
run "$clone/povfix" a
equal 'after a file has gone it is built again' "$every_call" "$(calls)"
sleep 0.1
echo changed >"$clone/crates/unused/src/lib.rt"
run "$clone/povfix" a
equal 'after a change in a crate that the program is not made of it is not built again' '' "$(calls)"
sleep 0.1
touch "$clone/crates.txt"
export RT_FAILS=yes
run "$clone/povfix" a
unset RT_FAILS
equal 'a program older than its sources is not run where the build fails' '125 ' "$status $output"
calls >/dev/null

# Two launchers at once.
if command -v flock >/dev/null; then
    PATH=$here/kit:$bare RT_SLEEP=1 "$clone/povfix" a >"$here/one" 2>/dev/null &
    first=$!
    run "$clone/povfix" b
    wait "$first" || status="$? $status"
    equal 'two launchers at once both run' "9 9 <a>$here/folder <b>$here/folder" "$status $(cat "$here/one") $output"
    equal 'and build once' "$every_call" "$(calls)"
else
    skipped 'two launchers at once' 'there is no flock'
fi

# A build that is broken off.
sleep 0.1
touch "$clone/crates.txt"
rm -f "$CALLS.process"
PATH=$here/kit:$bare RT_SLEEP=30 "$clone/povfix" a >/dev/null 2>"$here/messages" &
launcher=$!
for _ in $(seq 100); do
    [ ! -s "$CALLS.process" ] || break
    sleep 0.1
done
kill "$launcher"
status=0
wait "$launcher" || status=$?
equal 'a build that is broken off ends with the status of the signal' 143 "$status"
holds 'and says that it can go on' "$(cat "$here/messages")" 'goes on from here'
sleep 0.1
if kill -0 "$(cat "$CALLS.process")" 2>/dev/null; then
    failed 'rt ends with its launcher' 'it goes on'
else
    passed 'rt ends with its launcher'
fi
calls >/dev/null
run "$clone/povfix" a
equal 'the next run ends the build' "$every_call 9" "$(calls) $status"

# What another run of rt left: a program newer than its sources needs no kit.
rm "$clone/out/povfix"
sleep 0.1
touch "$clone/crates/povfix_main/out/povfix_main"
status=0
output=$(PATH=$bare "$clone/povfix" a) || status=$?
equal 'a program that rt ci left is taken' "<a>$here/folder 9" "$output $status"
rm "$clone/out/povfix"
printf 'half of a program' >"$clone/crates/povfix_main/out/povfix_main"
run "$clone/povfix" a
equal 'one that does not answer is built again' "$every_call 9" "$(calls) $status"

# On a terminal.
if command -v script >/dev/null; then
    touch "$clone/crates.txt"
    messages=$(PATH=$here/kit:$bare RT_SLEEP=1 script -qec "'$clone/povfix' a" /dev/null </dev/null | tr '\r' '@') || true
    holds 'on a terminal one line tells the progress' "$messages" '@povfix: proving base, crate 1 of 3' '@povfix: proving middle, crate 2 of 3'
    equal 'and no line ends meanwhile' 1 "$(printf '%s\n' "$messages" | grep -c 'proving ')"
else
    skipped 'on a terminal one line tells the progress' 'there is no command script'
fi

# The real one.
cd "$here/folder"
holds '--help of the real launcher' "$("$POVFIX" --help 2>&1)" '+Iname' '+Wn' 'exit status' 'examples/' 'docs'
equal '--version of the real launcher' 3 "$("$POVFIX" --version 2>&1 | wc -l)"
# What a start takes of the processor, beside a script of one line that starts the same program: where the machine is slow, or at
# work with something else, it is the one line that tells how long a start takes.
program=${POVFIX%/*}/crates/povfix_main/out/povfix_main
printf '#!/bin/sh\nexec "%s" "$@"\n' "$program" >"$here/one line"
chmod +x "$here/one line"
# the hundredths of a millisecond of processor time that a start takes, by fifty of them
taken() {
    {
        for _ in 1 2 3 4 5; do
            for _ in 1 2 3 4 5 6 7 8 9 10; do
                "$1" + 2>/dev/null || true
            done
        done
        times
    } | awk 'NR == 2 { for (side = 1; side <= 2; side++) { split($side, at, /[ms]/); sum += at[1] * 60 + at[2] } printf "%d", sum * 2000 }'
}
milliseconds() { printf '%d.%02d ms' $(($1 / 100)) $(($1 % 100)); }
launcher=$(taken "$POVFIX")
alone=$(taken "$here/one line")
name="it starts the program in less than 10 ms, or in at most six times what one line takes"
name="$name ($(milliseconds "$launcher") and $(milliseconds "$alone") of the processor)"
if [ "$launcher" -lt 1000 ] || [ "$launcher" -le $((6 * alone)) ]; then
    passed "$name"
else
    failed "$name" 'it takes longer'
fi
