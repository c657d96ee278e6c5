#!/bin/sh
# The examples: each runs by the command in its first line, and makes the picture or pictures that are named there.
set -eu
# shellcheck source=lib/results
. "$TESTS/lib/results"

home=${TESTS%/*}
mkdir examples
cp "$home"/examples/*.pov "$home"/examples/*.inc "$home"/examples/*.ini examples/
ln -s "$POVFIX" povfix

# header FILE, size FILE: what a picture file says of itself, and its bytes.
header() {
    head -n 3 "$1" 2>/dev/null | tr '\n' ' ' | tr -d '\0' || true
}
size() {
    wc -c 2>/dev/null <"$1" || echo none
}

for scene in examples/*.pov; do
    # // ./povfix WORD..      the picture is NAME
    command=$(sed -n '1s|^// \(./povfix .*[^ ]\)  *the picture is .*|\1|p' "$scene")
    picture=$(sed -n '1s|.* the picture is \([^ ]*\)$|\1|p' "$scene")
    case $(head -n 1 "$scene") in *' the pictures are '*) continue ;; esac
    wide=$(echo "$command" | sed -n 's/.* +W\([0-9]*\).*/\1/p')
    high=$(echo "$command" | sed -n 's/.* +H\([0-9]*\).*/\1/p')
    ended=0
    sh -c "$command" >said 2>&1 || ended=$?
    found=$(header "$picture")
    equal "$scene" "0 P6 $wide $high 255  $((wide * high * 3 + ${#found}))" "$ended $found $(size "$picture")"
done

# An animation's INI file and its scene have the same first line.
for film in examples/*.ini; do
    # ; ./povfix WORD..      the pictures are NAME01.ppm to NAME48.ppm
    line=$(sed -n '1s|^; ||p' "$film")
    equal "the command of $film is in its scene" "// $line" "$(head -n 1 "${film%.ini}.pov")"
    setting() {
        sed -n "/^\[/q; s/^$1=\([0-9]*\).*/\1/p" "$film"
    }
    wide=$(setting Width)
    high=$(setting Height)
    stem=$(echo "$line" | sed 's|.* the pictures are \([^ ]*[^0-9]\)\([0-9]*\)\.ppm to .*|\1|')
    last=${line##* to "$stem"}
    last=${last%.ppm}
    ended=0
    sh -c "${line%% the pictures are *}" >said 2>&1 || ended=$?
    wrong=
    number=$(setting Initial_Frame)
    while [ "$number" -le "$last" ]; do
        picture=$stem$(printf "%0${#last}d" "$number").ppm
        found=$(header "$picture")
        [ "$found $(size "$picture")" = "P6 $wide $high 255  $((wide * high * 3 + ${#found}))" ] || wrong="$wrong $picture"
        number=$((number + 1))
    done
    equal "$film" "0, of $(setting Final_Frame) wrong:, others:" "$ended, of $last wrong:$wrong, others:$(find examples -name "${stem##*/}*.ppm" | sed "1,${last}d")"
done

# The pictures of the gallery, at half their size.
if command -v pngtopnm >/dev/null && command -v pamscale >/dev/null; then
    for shown in "$home"/docs/gallery/*.png; do
        name=$(basename "$shown" .png)
        pngtopnm "$shown" >shown.ppm
        pamscale 0.5 "examples/$name.ppm" >made.ppm 2>said
        if cmp -s shown.ppm made.ppm; then
            passed "the picture of $name in the gallery is the one that is made"
        else
            failed "the picture of $name in the gallery is the one that is made" 'they differ'
        fi
    done
else
    skipped 'the pictures of the gallery' 'netpbm is not installed'
fi
