# What the launchers bench and explain share. Each sets `name`, the program's, `with_files`, a pattern for its commands
# whose words name files, `with_one_file`, one for those of whose words only the first names a file, and `told_under`,
# the part of docs/FORMATS.md that tells of them, and then reads this file, which runs the program with the launcher's
# words.
#
# The program that runs is the proved build, crates/NAME/out/NAME. Where there is none, or a source is newer, it is
# proved and built first; with BENCH_QUICK=1 the source is then run as it stands, without a proof and without that wait.
# It ends with the program's status, and says on standard error what a status means that comes without an answer.
root=$(cd -- "$(dirname -- "$(readlink -f -- "${BASH_SOURCE[0]}")")" && pwd) || exit 70
program=$root/crates/$name/out/$name

say() { printf '%s: %s\n' "$name" "$*" >&2; }

# Whether the proved build is there and no source is newer.
is_built() {
    [ -x "$program" ] || return 1
    [ -z "$(find "$root/crates.txt" "$root/crates" -name out -prune -o \
        \( -name '*.rt' -o -name '*.antt' -o -name crates.txt \) -newer "$program" -print -quit)" ]
}

# The words, each file word of a command as a path that does not depend on where the program runs. Before `--` a word with a
# hyphen in front is an option, and the word after `--workers` or `--most` its value.
words=()
with_paths() {
    local command=${1-} word last= ended= found=
    words=(${1+"$1"})
    shift || return 0
    for word in "$@"; do
        if [[ -z $ended && ( $word == -?* || $last == --workers || $last == --most ) ]]; then
            words+=("$word")
        elif [[ $command == $with_files || ( -z $found && $command == $with_one_file ) ]]; then
            if [[ $word == /* ]]; then words+=("$word"); else words+=("$PWD/$word"); fi
            found=yes
        else
            words+=("$word")
        fi
        if [ "$word" = -- ]; then ended=yes; fi
        last=$word
    done
}

# What keeps a file from being read, as far as the launcher sees it; nothing of a pipe or a device is read for that.
fault_of() {
    if [ -d "$1" ]; then
        echo 'it is a folder'
    elif [ ! -e "$1" ]; then
        echo 'it is not there'
    elif [ ! -r "$1" ]; then
        echo 'it may not be read'
    elif [ -f "$1" ] && ! head -c 1 -- "$1" >/dev/null 2>&1; then
        echo 'reading it fails'
    else
        return 1
    fi
}

# Says which file of the command could not be read: the first that the launcher can't read either.
say_unread() {
    local file fault
    with_paths "$@"
    for file in "${words[@]:1}"; do
        if [[ $file == /* ]] && fault=$(fault_of "$file"); then
            say "this file could not be read: $(printf '%q' "$file") ($fault)"
            return
        fi
    done
    say "a file of the command could not be opened or read"
}

# Says what a status means of which standard output does not tell.
say_status() {
    local status=$1
    shift
    case $status in
        2) say "these words are no command; $root/docs/FORMATS.md explains them under \"$told_under\"" ;;
        5) say_unread "$@" ;;
        6) say "standard output could not be written, so the answer is cut off" ;;
        7) say "no memory was found, so there is no answer" ;;
    esac
}

# Stops where the toolchain is missing.
want_toolchain() {
    command -v rt >/dev/null && return
    say "the Rattle toolchain is missing: no command rt is on your PATH; $root/README.md says under \"What you need\" which one"
    exit 70
}

# Runs the source by the toolchain's own run, which proves nothing.
run_quickly() {
    want_toolchain
    say "this run is not proved: the source is built and run as it stands, a minute or more at each call"
    local log input status
    with_paths "$@"
    log=$(mktemp) && input=$(mktemp) || exit 70
    # The toolchain's run waits two seconds for its standard input, so the launcher waits for the end of it.
    if [[ " $* " == *" /dev/stdin "* ]]; then cat >"$input"; fi
    (cd "$root/crates/$name" && rt try --seconds 600 --steps 1000000000000 -- ${words+"${words[@]}"}) 2>"$log" <"$input"
    status=$?
    if ! grep -q '^run=ended' "$log"; then
        cat "$log" >&2
        status=70
    fi
    rm -f "$log" "$input"
    say_status "$status" "$@"
    exit "$status"
}

# Proves every crate that the program stands on, and builds it.
build() {
    want_toolchain
    say "proving and building the program, once for each change of its sources: half an hour the first time"
    local log
    log=$(mktemp) || exit 70
    (cd "$root/crates/$name" && rt run --) >"$log" 2>&1
    # The program, run without words, has written the usage line: it was proved and built, now or before.
    if grep -q "^usage: $name " "$log" && [ -x "$program" ]; then touch "$program"; fi
    if ! is_built; then
        tail -n 40 "$log" >&2
        say "the program was not built; the whole log is in $log"
        exit 70
    fi
    rm -f "$log"
}

# Runs the proved build. A signal that ends the launcher ends the program too.
run_built() {
    local status
    if { : <&0; } 2>/dev/null; then "$program" "$@" <&0 & else "$program" "$@" <&- & fi
    trap 'kill $! 2>/dev/null' HUP INT QUIT TERM
    wait $!
    status=$?
    say_status "$status" "$@"
    exit "$status"
}

if ! is_built; then
    if [ "${BENCH_QUICK:-}" = 1 ]; then run_quickly "$@"; fi
    build
fi
run_built "$@"
