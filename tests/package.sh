#!/bin/sh
# The archive and the Debian package: their bytes, what the program in them needs, and a run of each where there is no kit.
set -eu
# shellcheck source=lib/results
. "$TESTS/lib/results"

here=$PWD
home=${TESTS%/*}
bare=/usr/sbin:/usr/bin:/sbin:/bin

# A scene whose picture is told by hand: two pixels of red 1, green 1/2 and blue 0, where 127.5 is rounded up.
scene='background { color rgb <1, 1/2, 0> }'
picture=$(printf 'P6\n2 1\n255\n\377\200\000\377\200\000' | od -An -tx1 | tr -d ' \n')

"$home/tools/package" one >/dev/null 2>&1
"$home/tools/package" two >/dev/null 2>&1
same=yes
for file in one/*; do
    cmp -s "$file" "two/${file#one/}" || same="$file differs"
done
equal 'two packagings of one program are the same bytes' yes "$same"

# The archive.
mkdir 'a folder' work
tar -C 'a folder' -xzf one/*.tar.gz
tree=$(echo "$here/a folder"/*)
ln -s "$tree/povfix" work/link
printf '%s\n' "$scene" >work/one.pov
ended=0
said=$(cd work && PATH=$bare ./link +Ione.pov +W2 +H1 2>&1) || ended=$?
equal 'a run from the archive, through a link and with no kit, is done' '0 ' "$ended $said"
equal 'and writes the picture' "$picture" "$(od -An -tx1 work/one.ppm | tr -d ' \n')"
holds 'the version names the commit and the kit' "$(work/link --version)" 'povfix ' 'commit ' 'proved by '
equal 'the documents are where --help says' yes "$(where=$(work/link --help | sed -n 's/^Documents and examples: \(.*\) (.*/\1/p') && [ -f "$where/docs/OPTIONS.md" ] && [ -f "$where/examples/first.pov" ] && echo yes)"
equal 'each picture that a document shows is there' '' "$(cd "$tree" && for text in README.md docs/*.md; do
    sed -n 's/^!\[.*](\(.*\))$/\1/p' "$text" | while read -r shown; do [ -f "$(dirname "$text")/$shown" ] || echo "$text: $shown"; done
done)"
if command -v ldd >/dev/null; then
    equal 'the program needs the C library alone' '' "$(ldd "$tree/povfix_main" | awk '$1 !~ /^(linux-vdso\.so\.1|libc\.so\.6|\/.*\/ld-linux.*)$/ { print $1 }')"
else
    skipped 'what the program needs' 'there is no ldd'
fi

# The Debian package, installed into a copy of this system that is forgotten at the end: an overlay in memory, seen by this test alone.
set -- one/*.deb
if [ ! -f "$1" ]; then
    skipped 'the Debian package' 'there is no dpkg-deb'
    exit
fi
if ! dpkg -s libc6 >/dev/null 2>&1; then
    skipped 'the Debian package installed' 'this is no Debian system'
    exit
fi
# shellcheck disable=SC2016 # the script's own variables
prepare='
    mkdir room
    mount -t tmpfs none room
    mkdir room/new room/work room/all
    mount -t overlay overlay -o lowerdir=/,upperdir=room/new,workdir=room/work room/all
    mount --rbind /dev room/all/dev
    mount -t proc none room/all/proc 2>/dev/null || mount --rbind /proc room/all/proc
'
if [ "$(id -u)" = 0 ]; then set -- "$1" -m; else set -- "$1" -rm; fi
if ! why=$(unshare "$2" sh -euc "$prepare" 2>&1); then
    skipped 'the Debian package installed' "no overlay can be mounted here: $(printf '%s' "$why" | tail -n 1)"
    exit
fi
rmdir room 2>/dev/null || true
cat >inside <<'END'
export PATH=/usr/sbin:/usr/bin:/sbin:/bin LC_ALL=C
dpkg -i /package.deb >/said 2>&1 && echo "installed $?" || { echo "not installed"; cat /said; }
rm -f /package.deb /said
mkdir /clean
cd /clean
cat /one.pov >one.pov
rm -f /one.pov
chmod 777 .
user=
if setpriv --reuid=65534 --regid=65534 --clear-groups true 2>/dev/null; then user='setpriv --reuid=65534 --regid=65534 --clear-groups'; fi
ended=0
$user povfix +Ione.pov +W2 +H1 || ended=$?
echo "ended $ended"
echo "picture $(od -An -tx1 one.ppm | tr -d ' \n')"
echo "version $(povfix --version | head -n 1)"
echo "documents $(where=$(povfix --help | sed -n 's/^Documents and examples: \(.*\) (.*/\1/p') && ls "$where" 2>/dev/null | tr '\n' ' ')"
echo "page $(gzip -dc /usr/share/man/man1/povfix.1.gz 2>/dev/null | grep -c '^.TH POVFIX 1')"
cd /
rm -r /clean
dpkg -P povfix >/dev/null 2>&1 && echo "removed $?"
dpkg -s povfix >/dev/null 2>&1 || echo "known no"
rm -f /inside
END
# shellcheck disable=SC2016
unshare "$2" sh -euc "$prepare"'
    cp "$1" room/all/package.deb
    cp inside work/one.pov room/all/
    chroot room/all sh /inside
    echo "left $(cd room/new && find . ! -type d ! -path "./var/lib/dpkg/*" ! -path "./var/log/*" ! -path "./var/cache/*" | tr "\n" " ")$(find room/new -name "*povfix*" | tr "\n" " ")"
' sh "$1" >told 2>&1 || true
told() {
    sed -n "s/^$1 //p" told
}
holds 'the Debian package is installed in a clean copy of this system' "$(cat told)" 'installed 0'
equal 'the installed program ends with 0' 0 "$(told ended)"
equal 'and writes the picture, in a clean folder' "$picture" "$(told picture)"
holds 'it tells its version' "$(told version)" 'povfix 0.'
if [ "$(told documents)" = '' ]; then
    # (a system may be told to leave /usr/share/doc out)
    skipped 'the documents are installed' 'dpkg leaves documents out here'
else
    holds 'the documents are installed' "$(told documents)" README.md docs examples
    equal 'and the manual page' 1 "$(told page)"
fi
equal 'the package is removed' '0 no' "$(told removed) $(told known)"
equal 'without a trace' '' "$(told left)"
