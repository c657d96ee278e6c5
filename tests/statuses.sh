#!/bin/sh
# How the program ends, over real folders: its exit status, what it says on standard error, and the picture file that is left.
# shellcheck disable=SC2016 # words of inner shells stand in single quotes
set -eu
# shellcheck source=lib/results
. "$TESTS/lib/results"

here=$PWD
scene='background { rgb <1, 0.5, 0> }'
pixel=$(printf 'P6\n1 1\n255\n\377\200\0' | od -An -v -to1 | tr -d '\n ')

# ending NAME STATUS MESSAGE COMMAND..: how a command ends. Nothing is ever written to standard output.
ending() {
    name=$1 status=$2 message=$3
    shift 3
    ended=0
    "$@" >"$here/output" 2>"$here/messages" || ended=$?
    equal "$name" "$status '$message' ''" "$ended '$(cat "$here/messages")' '$(cat "$here/output")'"
}

# folder NAME: goes to an empty folder with the scene a.pov.
folder() {
    mkdir "$here/$1"
    cd "$here/$1"
    printf '%s' "$scene" >a.pov
}

# spaces COUNT
spaces() {
    head -c "$1" /dev/zero | tr '\0' ' '
}

# has_pixel NAME FILE: whether the file holds the scene's one pixel, and nothing else.
has_pixel() {
    equal "$1" "$pixel" "$(od -An -v -to1 "$2" | tr -d '\n ')"
}

folder pictures
ending 'a picture' 0 '' "$POVFIX" a.pov +W1 +H1
has_pixel 'the file of a picture' a.ppm
spaces 100000 >b.ppm
ending 'a picture over a longer file' 0 '' "$POVFIX" a.pov +W1 +H1 +Ob.ppm
has_pixel 'the longer file is cut' b.ppm

folder generated
# The one pixel's channels are 30 each, in both frames.
ending 'a generated scene' 0 'generated 1 objects, 1x1, sum 180' "$POVFIX" +GEN1 +W1 +H1 +KFF2
ending 'a summary that cannot be written' 8 '' sh -c '"$1" +GEN1 +W1 +H1 2>/dev/full' sh "$POVFIX"
equal 'the picture before it' 14 "$(($(wc -c <generated.ppm)))"
for turn in first second; do
    ending "a larger one, the $turn time" 0 'generated 400 objects, 160x120, sum 4613877' "$POVFIX" +GEN400 +W160 +H120
done
cp "${TESTS%/*}/examples/desk.pov" "${TESTS%/*}/examples/tints.inc" .
ending 'the desk' 0 '' "$POVFIX" desk.pov +W160 +H120 +WT4
equal 'the size of its picture' 57615 "$(($(wc -c <desk.ppm)))"

folder frames
printf 'Input_File_Name=a.pov\nWidth=1\nHeight=1\nFinal_Frame=11\n' >film.ini
ending 'an animation' 0 '' "$POVFIX" film.ini +SF9
for frame in 09 10 11; do has_pixel "the file of frame $frame" "a$frame.ppm"; done
equal 'no file before the subset' no "$([ -e a08.ppm ] && echo yes || echo no)"
printf '%s' 'background { rgb <1, 0.5, 1 / (2 - frame_number) - 1> }' >b.pov
ending 'a frame that is refused' 2 'scene fault P3 at b.pov:1' "$POVFIX" b.pov +W1 +H1 +KFF3
has_pixel 'the file of the frame before it' b1.ppm
equal 'no file of the refused frame' no "$([ -e b2.ppm ] && echo yes || echo no)"

folder lengths
{
    spaces 200000
    printf '// %s\n%s' "$(spaces 70000)" "$scene"
} >b.pov
ending 'a text of 270 KB' 0 '' "$POVFIX" b.pov +W1 +H1
has_pixel 'the picture of a text of 270 KB' b.ppm
# The name, eight bytes and the text are 16 MiB.
{
    printf '%s' "$scene"
    spaces $((16777216 - 8 - 5 - ${#scene}))
} >c.pov
ending 'the longest text' 0 '' "$POVFIX" c.pov +W1 +H1
has_pixel 'the picture of the longest text' c.ppm
printf ' ' >>c.pov
ending 'a text one byte longer' 3 'limit 4 at c.pov:1' "$POVFIX" c.pov +W1 +H1
spaces $((16777216 + 2)) >d.pov
ending 'a text of 16 MiB and two bytes' 3 'limit 4 at d.pov:1' "$POVFIX" d.pov +W1 +H1
equal 'a refused text leaves no file' no "$([ -e d.ppm ] && echo yes || echo no)"

folder refusals
printf '\n$' >b.pov
ending 'a word that is unknown' 1 'option fault 1 at word 2' "$POVFIX" a.pov +Z
ending 'a word that is out of profile' 1 'option fault 7 at word 2' "$POVFIX" a.pov +FN
printf 'Input_File_Name=a.pov\nWidth=0\n' >bad.ini
ending 'a line of an INI file' 1 'option fault 4 at line 2' "$POVFIX" bad.ini
ending 'an INI file that is not there' 1 'option fault 5 at word 1' "$POVFIX" none.ini
ending 'a word that is not UTF-8' 1 'option fault 7 at word 0' "$POVFIX" "$(printf 'a\377.pov')"
ending 'no word' 1 'option fault 3 at word 0' "$POVFIX" +W1
ending 'a text that begins no token' 2 'scene fault L1 at b.pov:2' "$POVFIX" b.pov
printf '%s triangle { 0, x, y }' "$scene" >b.pov
ending 'a scene with a triangle' 2 'scene fault P2 at b.pov:1' "$POVFIX" b.pov
printf '%s\ntorus { 1, 0.2 }' "$scene" >b.pov
ending 'an item that is out of profile' 2 'scene fault P2 at b.pov:2' "$POVFIX" b.pov
ending 'a text that is not there' 4 'absent c.pov' "$POVFIX" c.pov
mkdir d.pov
ending 'a folder in the place of a text' 5 'text fault' "$POVFIX" d.pov
ending 'messages that cannot be written' 4 '' sh -c '"$1" c.pov 2>/dev/full' sh "$POVFIX"
ending 'messages that are closed' 4 '' sh -c '"$1" c.pov 2>&-' sh "$POVFIX"
if [ -r /proc/self/mem ]; then
    ending 'a text whose reading fails' 5 'text fault' "$POVFIX" +I/proc/self/mem +Oa.ppm
else
    skipped 'a text whose reading fails' 'there is no /proc/self/mem'
fi

folder storage
mkdir b.ppm
ending 'a folder in the place of the picture' 7 'shelf fault' "$POVFIX" a.pov +W1 +H1 +Ob.ppm
ending 'a picture in a folder that is not there' 7 'shelf fault' "$POVFIX" a.pov +W1 +H1 +Oc/a.ppm
ln -s /dev/full full.ppm
ending 'a write that fails' 7 'shelf fault' "$POVFIX" a.pov +W1 +H1 +Ofull.ppm
ln -s /dev/null null.ppm
ending 'a file that cannot be cut' 7 'shelf fault' "$POVFIX" a.pov +W1 +H1 +Onull.ppm
# A file system of 64 KiB, for a picture of 192 KiB.
mkdir small
if unshare --mount sh -c 'mount -t tmpfs -o size=64k tmpfs small' 2>/dev/null; then
    ending 'a disk that is full' 7 'shelf fault' unshare --mount sh -c \
        'mount -t tmpfs -o size=64k tmpfs small && "$1" a.pov +W256 +H256 +Osmall/a.ppm' sh "$POVFIX"
else
    skipped 'a disk that is full' 'no file system can be mounted here'
fi

folder memory
# shellcheck disable=SC3045 # dash and bash know -v
if (ulimit -v 60000) 2>/dev/null; then
    ending 'too little memory' 9 'no memory' sh -c 'ulimit -v 60000; "$1" a.pov +W4096 +H4096' sh "$POVFIX"
    equal 'too little memory leaves no file' no "$([ -e a.ppm ] && echo yes || echo no)"
else
    skipped 'too little memory' 'memory cannot be limited here'
fi

# What a user may not read or write; to the system's own user nothing is closed.
folder rights
cp a.pov b.pov
chmod 000 b.pov
chmod 755 .
mkdir open
chmod 777 open
as=
if [ "$(id -u)" = 0 ]; then as='setpriv --reuid=65534 --regid=65534 --clear-groups'; fi
# shellcheck disable=SC2086 # words of a command
if $as "$POVFIX" a.pov +W1 +H1 +Oopen/a.ppm 2>/dev/null; then
    ending 'a text that may not be read' 5 'text fault' $as "$POVFIX" b.pov +W1 +H1 +Oopen/b.ppm
    chmod 555 .
    ending 'a folder that may not be written' 7 'shelf fault' $as "$POVFIX" a.pov +W1 +H1 +Oc.ppm
    chmod 755 .
else
    skipped 'what may not be read or written' 'the program cannot be run as another user here'
fi
cd "$here"
