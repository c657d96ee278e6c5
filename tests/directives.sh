#!/bin/sh
# Scenes whose directives take long, up to the limits that end them: what the built program says of them, and how it ends.
set -eu
# shellcheck source=lib/results
. "$TESTS/lib/results"

# ending NAME STATUS MESSAGES TEXT: how a scene ends whose text is a.pov. A picture stands there exactly after status 0.
ending() {
    rm -f a.ppm
    ended=0
    "$POVFIX" a.pov +W1 +H1 2>messages || ended=$?
    drawn=no
    [ ! -e a.ppm ] || drawn=yes
    wanted=no
    [ "$2" != 0 ] || wanted=yes
    equal "$1" "$2 '$3' $wanted" "$ended '$(cat messages)' $drawn"
}

# A turn goes over 13 tokens. A million of them are less than 2^24, and 1,300,000 are more.
printf '#declare I = 0; #while (I < 1000000) #declare I = I + 1; #end #debug str(I,0,0)' >a.pov
ending 'a million turns' 0 1000000
printf '#declare I = 0; #while (I < 1300000) #declare I = I + 1; #end' >a.pov
ending 'turns past the limit of tokens' 3 'limit 1 at a.pov:1'
printf '#while (1) #end' >a.pov
ending 'a loop without an end' 3 'limit 1 at a.pov:1'

# What a loop said before it is broken off by an error of the scene.
printf '#for (I, 1, 3) #debug str(I,0,0) #end\n#error "enough"' >a.pov
ending 'an error of the scene' 2 '123scene fault U6 at a.pov:2 enough'

# Calls in each other, up to the limit of depths and one past it: a call and its #if are two.
printf '#macro R(N) #if (N > 0) R(N-1) #end #end\nR(31)' >a.pov
ending 'calls as deep as they may be' 0 ''
printf '#macro R(N) #if (N > 0) R(N-1) #end #end\nR(32)' >a.pov
ending 'a call too deep' 3 'limit 3 at a.pov:1'

# Right sides in each other aren't counted as depths, and take no stack: the last one alone has its semicolon.
awk 'BEGIN { for (i = 0; i < 1000000; i++) print "#declare A ="; print "0;" }' >a.pov
ending 'a million right sides in each other' 2 'scene fault D4 at a.pov:1000001'

# A thousand includes of one text, and one that isn't there.
awk 'BEGIN { print "#declare S = 0; #for (I, 1, 1000) #include \"b.inc\" #end #debug str(S,0,0)" }' >a.pov
printf '#declare S = S + 1;' >b.inc
ending 'a thousand includes' 0 1000
printf '#include "b.inc"\n#include "c.inc"' >a.pov
printf '#declare S = 1;' >b.inc
ending 'an include that is not there' 4 'absent c.inc'
