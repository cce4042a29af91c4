# shellcheck shell=bash
# To be sourced by a command that builds and runs our programs.
#
#   root, me   the repository and the command's name, which the command sets
#   stop       ends with a sentence on standard error
#   begin      makes $room, a temporary folder; however the command ends, neither it nor a process is left
#   beside     runs a command and waits for it, ready to be interrupted
#   follow     as beside, and gives each line that the command says on standard error to a function
#   find_kit   finds the Rattle toolchain: $kit, $version, and $under, the words before a program that it has built
#   build      proves and builds programs, shows how far that is, and takes them
#   sum_of     the sum of all that a program is made from
#   mark       notes what a program that lies in its out/ was made from
#   take       copies programs that are built to $room/own
#   run        becomes a program that was taken
#   try_list   becomes the oracle, which runs the program `list` on few or many inputs
: "${root:?} ${me:?}"

stop() { # STATUS SENTENCE
    echo "$me: $2" >&2
    exit "$1"
}

child='' room='' before=()

# Bash answers a signal only between two commands. So whatever may take long runs beside it, as $child, and bash waits.
begin() {
    local signal
    { true 3<&0; } 2>/dev/null || exec </dev/null
    trap leave EXIT
    for signal in INT TERM HUP QUIT PIPE; do
        # shellcheck disable=SC2064
        trap "interrupted $signal" "$signal"
    done
    room=$(mktemp -d) || stop 1 "no temporary folder can be made"
    chmod 711 "$room" # what runs in there may be nobody
    mkfifo "$room/said"
}

# All that a child has started is in its group. One that has only just been forked has no group yet, and $child not its
# number.
leave() {
    local one tries
    for one in $child $(jobs -pr); do
        kill -KILL -- "-$one" "$one" 2>/dev/null || true
        wait "$one" 2>/dev/null || true
    done
    # The rest of a group might still lay files down for a moment.
    for ((tries = 0; tries < 50; tries++)); do
        if [ -z "$room" ] || rm -rf "$room" 2>/dev/null; then break; fi
        sleep 0.02
    done
}

# The signal is raised again once all is cleared away: a caller then knows that it was one.
interrupted() { # SIGNAL
    trap '' INT TERM HUP QUIT PIPE
    leave
    trap - EXIT "$1"
    kill -s "$1" "$$"
    exit "$((128 + $(kill -l "$1")))"
}

beside() { # COMMAND [WORD...]
    local status=0
    "$@" <&0 &
    child=$!
    wait "$child" || status=$?
    child=''
    return "$status"
}

# By a pipe and not a file: what is said of a full disk must find its way too.
follow() { # FUNCTION COMMAND [WORD...]
    local line status=0
    "${@:2}" 2>"$room/said" <&0 &
    child=$!
    exec 4<"$room/said"
    while IFS= read -r line <&4 || [ -n "$line" ]; do "$1" "$line"; done
    exec 4<&-
    wait "$child" 2>/dev/null || status=$?
    child=''
    return "$status"
}

find_kit() {
    local found processor
    local readme='(README.md, "What is needed")'
    found=$(type -P rt) || stop 1 "there is no command rt: this needs the Rattle toolchain $readme"
    processor=$(uname -m)
    version=$(rt version 2>/dev/null) || version=''
    kit=${RATTLE_HOME:-$(dirname "$(dirname "$(readlink -f "$found")")")}
    # Our programs are for x86-64. A kit for several processors has a folder for each, and a loader and maybe an emulator there;
    # rt of such a kit doesn't tell its version where it has nothing for this one.
    local tools=$kit/on/$processor/toolchain
    local loader=$tools/lib/ld-linux-x86-64.so.2
    local nothing="the Rattle toolchain in $kit has nothing for this processor, $processor"
    if [ -d "$kit/on" ] && [ ! -e "$loader" ]; then stop 1 "$nothing"; fi
    if [[ $version != rattle-kit-* ]]; then
        stop 1 "$found isn't the Rattle toolchain's rt: 'rt version' doesn't begin with rattle-kit- $readme"
    fi
    if [ ! -e "$loader" ] && [ "$processor" != x86_64 ]; then stop 1 "$nothing"; fi
    under=()
    if [ -e "$loader" ]; then under=("$loader" --library-path "$tools/lib"); fi
    if [ -x "$tools/bin/qemu-x86_64" ]; then under=("$tools/bin/qemu-x86_64" "${under[@]}"); fi
    if [ "$(id -u)" = 0 ]; then
        under=(setpriv --reuid=65534 --regid=65534 --clear-groups --no-new-privs "${under[@]}")
    fi
}

# The crates that some need and those themselves, lowest first, a line for each.
needed() { # CRATE...
    awk -v wanted="$*" '
        function visit(crate,    list, count, i) {
            if (!(crate in uses) || crate in seen) return
            seen[crate]
            count = split(uses[crate], list, " ")
            for (i = 1; i <= count; i++) visit(list[i])
            print crate
        }
        { sub(/#.*/, "") }
        split($0, part, ":") == 2 { gsub(/[ \t]/, "", part[1]); uses[part[1]] = part[2] }
        END { count = split(wanted, first, " "); for (i = 1; i <= count; i++) visit(first[i]) }' "$root/crates.txt"
}

# The sum of all that a program is made from: the kit, and the crates that it needs.
sum_of() { # PROGRAM
    local crate
    {
        echo "$version"
        cat "$root/crates.txt"
        for crate in $(needed "$1"); do
            (cd "$root/crates/$crate" && find . -path ./out -prune -o -name '*.rt' -type f -print0 -o -name '*.antt' -type f -print0 | LC_ALL=C sort -z | xargs -0r sha256sum)
        done
    } | sha256sum
}

# Notes that the program in its crate's out/ was proved, and made from what has this sum.
mark() { # PROGRAM SUM
    echo "$2 $(sha256sum <"$root/crates/$1/out/$1")" >"$root/crates/$1/out/$1.made"
}

# Whether the program in its crate's out/ is one that was proved, of what stands here now.
is_made() { # PROGRAM
    local out=$root/crates/$1/out
    [ -e "$out/$1" ] && [ -e "$out/$1.made" ] && [ "$(cat "$out/$1.made")" = "$(sum_of "$1") $(sha256sum <"$out/$1")" ]
}

# A line of what rt says. Of the program's crate and those below it is told which is proved, of rt's own words what isn't as it always is.
show() { # LINE
    echo "$1" >&5
    case $1 in
    'crate '*': modules loaded='*)
        one=${1#crate }
        one=${one%%:*}
        ;;
    'logic=proved '*) echo "$me: $(printf '%s\n' "${crates[@]}" | grep -nx "$one" | cut -d: -f1) of ${#crates[@]}: $one is proved" >&2 ;;
    'rt: chose '* | 'rt: '*': begins with what '* | 'rt: nothing has changed '* | 'rt: running '* | 'rt: rt '*) ;;
    'rt: '*) echo "$me: ${1#rt: }" >&2 ;;
    esac
}

# In a group of its own, with our folder for what it puts down meanwhile: neither outlives us. The program that it ends with has nothing to read.
run_once() { # PROGRAM
    cd "$root/crates/$1" || exit
    TMPDIR=$room exec setsid rt run </dev/null >/dev/null
}

# Holds a lock until the programs are taken: of two builds at once, the second is to find what the first has made.
build() { # PROGRAM...
    local program
    exec 9<"$root/crates.txt"
    if ! flock -n 9; then
        echo "$me: waiting for another build to end" >&2
        beside flock 9
    fi
    for program in "$@"; do
        if ! is_made "$program"; then prove "$program"; fi
    done
    take "$@"
    exec 9<&-
}

prove() { # PROGRAM
    local out=$root/crates/$1/out sum crate one
    mapfile -t crates < <(needed "$1")
    for crate in "${crates[@]}"; do
        mkdir -p "$root/crates/$crate/out" 2>/dev/null || true
        if [ ! -w "$root/crates/$crate/out" ]; then
            stop 1 "programs are built in the folders out/ below $root/crates, and $crate/out can't be written"
        fi
    done
    echo "$me: proving and building $1: ${#crates[@]} crates, which takes some minutes from nothing" >&2
    sum=$(sum_of "$1")
    exec 5>"$out/build.log"
    follow show run_once "$1" || stop 1 "the build failed, and crates/$1/out/build.log has why$(other_kit)"
    exec 5>&-
    # What was changed meanwhile may not be in it.
    if [ "$sum" = "$(sum_of "$1")" ]; then mark "$1" "$sum"; fi
}

# The kit, if its logic is another than the one that all was last proved with.
other_kit() {
    local known
    known=$(cat "$root/kit.txt")
    if [ "${version##* }" != "${known##* }" ]; then
        echo "; all was last proved with $known, and here is $version"
    fi
}

take() { # PROGRAM...
    local program
    mkdir -p "$room/own" "$room/data"
    for program in "$@"; do
        cp "$root/crates/$program/out/$program" "$room/own" || stop 1 "$program can't be copied to $room"
    done
    chmod -R go+rX "$room/own"
    if [ "$(id -u)" = 0 ]; then chown 65534:65534 "$room/data"; fi
}

# In an empty folder outside the repository, and a group of its own.
run() { # PROGRAM
    unset "${!QEMU_@}"
    cd "$room/data" || exit
    exec setsid "${before[@]}" "${under[@]}" "$room/own/$1"
}

try_list() { # few|many ORACLE
    before=("$2" try-list "$1")
    run list
}
