#!/usr/bin/env bash
# Prints what guests cost that wait: see README.md. Needs rt and gcc. Argument: another diecast program, to tell
# how much longer this one takes for a busy guest (none).
set -eu
before=${1:-}
here=$(cd "$(dirname "$0")" && pwd)
. "$here/../compare.sh"

image jump.bin 0000006f
image wait.bin 10500073
# lui x1,0x2004; lui x2,0xf4; addi x2,x2,0x240; sw x2,0(x1); sw x0,4(x1); addi x3,x0,128; csrrs x0,mie,x3; wfi
timer="020040b7 000f4137 24010113 0020a023 0000a223 08000193 3041a073 10500073"
image timer.bin $timer

experiment() { # an experiment FILE of this RATE, with one slot of the rate's capacity for each IMAGE
    local file=$1 rate=$2 g=0 image
    shift 2
    {
        printf 'version = 1\nfactor = 1\n'
        for image in "$@"; do printf '[[slot]]\ncapacity = %s\n' "$rate"; done
        for image in "$@"; do
            printf '[[guest]]\nname = "g%s"\nimage = "%s.bin"\nformat = "flat"\nram = 4096\nrate = %s\nslot = %s\n' "$g" "$image" "$rate" "$g"
            g=$((g + 1))
        done
    } > "$work/$file"
}
experiment wait.toml 100000 wait
experiment timer.toml 1 timer
experiment busy.toml 1000 jump
experiment many.toml 1000 jump $(printf 'wait %.0s' {1..31})
experiment slow.toml 1 jump

gcc -O2 "-DPROGRAM=0x${timer// /, 0x}" -o "$work/waits" "$here/waits.c"
build_diecast

cd "$work"
runs() { # a diecast, an experiment, host ticks
    best "$1" run "$2" --host-ticks "$3" --view journal
}

runs "$diecast" wait.toml 100
[ "$(tail -n 2 said | head -n 1)" = "run 0 units 100000 done 10000000" ] || { tail -n 3 said; exit 1; }
goal "10,000,000 ticks of a guest that waits, in us" "$least" 50000

ticks=1000000
command_of ours "$diecast" run timer.toml --host-ticks $ticks --view journal
command_of theirs ./waits $ticks
in_turn ./ours ./theirs
goal "a host tick of a guest that waits for a timer, ns more than C" "$(awk "BEGIN { printf \"%.0f\", ($one - $other) * 1000 / $ticks }")" 60

ticks=2000
runs "$diecast" busy.toml $ticks; busy=$least
runs "$diecast" many.toml $ticks
goal "a step of a busy guest beside 31 that wait, by one alone" "$(ratio "$least" "$busy")" 1.3

[ -n "$before" ] || exit 0
for form in "busy.toml 2000" "slow.toml 1000000"; do
    set -- $form
    command_of ours "$diecast" run "$1" --host-ticks "$2" --view journal
    command_of theirs "$before" run "$1" --host-ticks "$2" --view journal
    in_turn ./ours ./theirs
    goal "a busy guest, $form host ticks, by the other program" "$(ratio "$one" "$other")" 1.03
done
