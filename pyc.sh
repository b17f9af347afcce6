#!/bin/sh
# pyc.sh is the command, in a checkout and in an installation. Words that the program itself reads go to the program, and
# want no Python; all others go to the package in python/. In a checkout the first call that wants the program builds it:
# without proof where cargo is there, else it proves it first, as --prove does in any case.

say() {
    echo "pyc.sh: $*" >&2
}

# The folder of this file, also where it is called by a symbolic link.
self=$0
while [ -L "$self" ]; do
    to=$(readlink "$self") || exit 127
    case $to in
        /*) self=$to ;;
        *) self=$(dirname -- "$self")/$to ;;
    esac
done
root=$(CDPATH='' cd -- "$(dirname -- "$self")" && pwd -P) || exit 127
program=$root/crates/pyc/out/pyc called='sh pyc.sh'
if [ ! -e "$root/crates.txt" ]; then
    program=$root/python/pyc/bin/pyc called=pyc
fi

# Whether a word is MODE, and whether one is LEVEL.
is_mode() {
    case $1 in exec | eval | single | block) ;; *) return 1 ;; esac
}
is_level() {
    case $1 in 0 | 1 | 2) ;; *) return 1 ;; esac
}

# Whether a word is a number: digits alone.
is_number() {
    case $1 in '' | *[!0-9]*) return 1 ;; esac
}

# Whether the words are those that the program itself reads.
is_of_program() {
    case $1 in
        exec | eval | single | block) [ $# -eq 3 ] && is_level "$2" ;;
        pack) [ $# -eq 4 ] && is_mode "$2" && is_level "$3" ;;
        step) [ $# -eq 5 ] && is_mode "$2" && is_level "$3" ;;
        unpack) [ $# -eq 1 ] ;;
        names) [ $# -eq 2 ] && [ "$2" = "${2#-}" ] ;;
        sample) [ $# -eq 3 ] && is_number "$2" && is_level "$3" ;;
        *) return 1 ;;
    esac
}

has_python() {
    python3 -c 'import sys; sys.exit(sys.version_info < (3, 8))' 2>/dev/null
}

# The crates that pyc stands on, those below others first, and pyc itself; crates.txt says which uses which.
crates() {
    awk -F: '
        function visit(name, used, count, i) {
            if (name in seen) return
            seen[name] = 1
            count = split(uses[name], used, " ")
            for (i = 1; i <= count; i++) if (used[i] in uses) visit(used[i])
            print name
        }
        !/^#/ && NF == 2 { split($1, words, " "); uses[words[1]] = $2 }
        END { visit("pyc") }
    ' "$root/crates.txt"
}

# Runs rt in a crate, over a file. What ends this call ends it too, and all that it has started, where setsid gives it a
# group of its own.
run_rt() {
    crate=$1 input=$2
    shift 2
    group=''
    command -v setsid >/dev/null && group=setsid
    (cd "$root/crates/$crate" && exec $group rt "$@" <"$input" >"$log" 2>&1) &
    child=$!
    trap 'kill -TERM ${group:+-}$child 2>/dev/null; exit 143' TERM HUP
    trap 'kill -TERM ${group:+-}$child 2>/dev/null; exit 130' INT
    wait $child
    status=$?
    trap - TERM HUP INT
    [ $status -eq 0 ] || cat "$log" >&2
    return $status
}

# Waits for a call that builds, where flock can tell of one.
wait_for_lock() {
    mkdir -p "$root/crates/pyc/out" || return
    command -v flock >/dev/null || return 0
    exec 9>>"$root/crates/pyc/out/lock" || return
    flock -n 9 || {
        say "another call (pid $(tail -n 1 "$root/crates/pyc/out/lock")) is building: waiting for it (^C leaves it alone)"
        flock 9
    }
    echo $$ >"$root/crates/pyc/out/lock"
}

# Proves the crates below the program one after the other and builds it, where there is no python3 for tools/build.py. What
# was proved before is taken as it is, and what is wrong is shown. The build ends with a run of the program, which gets a
# file of the repository and not the input of this call.
prove_in_turn() {
    all=$(crates)
    count=$(($(echo "$all" | wc -l)))
    say "the program is not built yet: this call proves its $count crates and builds it, in $root/crates"
    say 'one crate at a time that took 63 minutes on a machine with 4 processors; it may be stopped, and the next call goes on'
    wait_for_lock
    at=0
    log=$root/crates/pyc/out/build.log
    for crate in $all; do
        at=$((at + 1))
        [ "$crate" = pyc ] && continue
        say "$at of $count: $crate"
        run_rt "$crate" /dev/null lib || return
    done
    say "$count of $count: pyc"
    run_rt pyc "$root/examples/call.json" run -- exec 0 m.py
}

# Runs the program as cargo builds it, without proof, where cargo and python3 are there; tools/quick_build.py says so.
run_unproved() {
    [ -e "$root/tools/quick_build.py" ] && has_python || return 0
    unproved=$(python3 -I -S -B "$root/tools/quick_build.py")
    status=$?
    [ $status -ne 0 ] || exec "$unproved" "$@"
    [ $status -lt 128 ] || exit $status
}

# Proves and builds the program; the call is then made anew.
build() {
    if [ ! -e "$root/crates.txt" ]; then
        say "the program is not there: $program"
        exit 127
    elif ! command -v rt >/dev/null; then
        say 'the program is not built yet, and rt, which proves and builds it, is not on the path: install the Rattle kit'
    elif has_python; then
        exec python3 "$root/tools/build.py" --then "$root/pyc.sh" pyc "$@"
    else
        prove_in_turn
    fi
    if [ ! -x "$program" ]; then
        say 'the program could not be built'
        exit 127
    fi
}

if is_of_program "$@"; then
    if [ ! -x "$program" ]; then
        run_unproved "$@"
        build "$@"
    fi
    exec "$program" "$@"
fi
if [ "$1" = --prove ] && ! has_python; then
    [ -x "$program" ] || build
    shift
    [ $# -gt 0 ] || exit 0
    exec sh "$root/pyc.sh" "$@"
fi
if ! command -v python3 >/dev/null; then
    case $1 in
        exec | eval | single | block | pack | step | unpack | names | sample)
            say "'$1' is followed by other words, or by other options where there is a python3; a file of that name is ./$1"
            exit 2
            ;;
    esac
    say 'there is no python3 of 3.8 or later on the path, which reads the files and these words'
    say 'without it these are read: MODE LEVEL PATH, pack, unpack, step, names PATH, sample (docs/COMMANDS.md)'
    exit 127
fi
# Where no code of the user runs, Python needs nothing of the user's.
flags='-I -S'
case " $* " in
    *' --run '* | ' run '* | ' console '* | ' lint '*) flags='' ;;
esac
exec python3 $flags "$root/python/pyc/__main__.py" --called "$called" "$@"
