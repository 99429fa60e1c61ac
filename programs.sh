# Shared by play, soak, game, balance and carry, which source it and set `me`: the proved programs behind them.
top=$(cd "$(dirname "${BASH_SOURCE[0]}")" && pwd -P)
say() { echo "$me: $*" >&2; }

# built NAME: sets `program` to target/bin/NAME, proved and built where there is none yet or a crate has changed since.
built() {
    local spent=$top/target/$1-seconds log=$top/target/$1.log took="some minutes" began made=$top/crates/$1/out/$1
    program=$top/target/bin/$1
    if [ -x "$program" ] && [ -z "$(find "$top/crates" "$top/crates.txt" -path "$top/crates/*/out" -prune -o -type f -newer "$program" -print -quit)" ]; then return; fi
    command -v rt >/dev/null || { say "the Rattle toolchain's command rt is not on the path"; exit 1; }
    if [ -f "$spent" ]; then took="$(cat "$spent") s last time"; fi
    say "proving and building the program ($took)"
    began=$(date +%s)
    mkdir -p "$top/target/bin"
    # the program is run once, on nothing
    rm -f "$made"
    (cd "$top/crates/$1" && rt run) >"$log" 2>&1 </dev/null || true
    if [ ! -x "$made" ] || grep -q '^logic=not-proved' "$log"; then tail -n 20 "$log" >&2; exit 1; fi
    cp "$made" "$program"
    touch "$program"
    echo $(($(date +%s) - began)) >"$spent"
    say "built in $(cat "$spent") s"
}

# decimals FILE: what a program printed, with its floats as decimals. A label may itself be sixteen hexadecimal digits: only what stands behind it is a float.
decimals() {
    perl -pe 'if (/^(\((?:mean|dev) \S+|\(clock|\(timer \d+)(.*)/) {
        my ($head, $row) = ($1, $2);
        my $form = $head =~ /^\([md]/ ? "%.6g" : "%.10g";
        $row =~ s/\b([0-9a-f]{16})\b/sprintf($form, unpack("d", pack("Q", hex $1)))/ge;
        $_ = "$head$row\n";
    }' "$1"
}

# meaning NUMBER LINE: what a refusal's number says of a net, its text, its run, its game, its change or, at line 0, its weights.
meaning() {
    case $1,$2 in
    3,0) echo "a list has as many weights as the net has places" && return ;;
    4,0) echo "a weight is 0 to 1,000" && return ;;
    esac
    case $1 in
    1) echo "a line of the wrong form, a line that is missing, or text after the last" ;;
    2) echo "too many places, moves, arcs or bytes, or no place before the first move or run line" ;;
    3) echo "a place number that is not below the place count" ;;
    4) echo "a value outside its domain" ;;
    5) echo "one place twice among the takes of a move" ;;
    6) echo "a delay without a take" ;;
    7) echo "the kinetic weights of a move total more than 16" ;;
    8) echo "samples are 2 to 1,024" ;;
    9) echo "realizations are 1 to 65,535" ;;
    10) echo "the horizon is above 0 and at most 2^30" ;;
    11) echo "places times samples are more than the 2,048 cells of a table" ;;
    14) echo "a count would pass 2^53 during a path" ;;
    15) echo "a 257th timer would start during a path" ;;
    17) echo "a place has a label of 1 to 16 letters a to z, digits or hyphens, behind its capacity" ;;
    18) echo "an earlier place has this label already" ;;
    20) echo "two editions of a net have equally many places" ;;
    21) echo "a renaming list names transitions that its nets have, each at most once on its side" ;;
    22) echo "a renaming list has every transition whose timer runs, and sends it to one with a delay" ;;
    23) echo "a game has no delayed transition" ;;
    24) echo "a game gives each transition one side, f or r, at most 8 on each, and has 1 to 8 turns" ;;
    25) echo "the net has no such place" ;;
    *) echo "docs/ENTRIES.md has the numbers" ;;
    esac
}

# explained LINE [WHAT [TEXT]]: where the line is (refused NUMBER LINE), what the number says; the status is 3. At line 0 it is said of WHAT, but for 2, which
# is said of a text of too many bytes; TEXT names the text where there are two.
explained() {
    local number line where
    if [[ $1 =~ ^\(refused\ ([0-9]+)\ ([0-9]+)\)$ ]]; then
        number=${BASH_REMATCH[1]} line=${BASH_REMATCH[2]}
        case $number,$line in
        2,0) where="${3:-the text} as a whole" ;;
        *,0) where=${2:-the text as a whole} ;;
        *) where="line $line${3:+ of $3}" ;;
        esac
        say "refused by $number, $where: $(meaning "$number" "$line")"
        exit 3
    fi
}
