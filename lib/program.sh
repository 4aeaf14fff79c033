# What the commands of the folder above have in common: a book is put to a proved program, which is built first if it is missing or out of
# date. A command sources this file and calls `put_book_to PROGRAM "$@"`; its own name stands before what is said on standard error.

command=$(basename "$0")
root=$(dirname "$(dirname "$(readlink -f "${BASH_SOURCE[0]}")")")

fail() {
    printf '%s: %s\n' "$command" "$1" >&2
    exit 2
}

# Where rt builds a program.
program_of() {
    printf '%s/crates/%s/out/%s' "$root" "$1" "$1"
}

# Proves and builds a program and all that it needs; rt keeps what did not change. rt also runs what it built, here on no input.
build() {
    command -v rt >/dev/null || fail 'the program is to be built, which needs the Rattle kit, and there is no rt in the PATH'
    echo "$command: proving and building the program, which takes some minutes the first time" >&2
    (cd "$root/crates/$1" && rt run </dev/null >/dev/null) || fail 'the program could not be built'
    touch "$(program_of "$1")"
}

# Builds a program unless the last one is newer than all sources; what a check keeps in the crates' out/ is none.
build_if_needed() {
    local program
    program=$(program_of "$1")
    if [ ! -x "$program" ] || [ "$root/crates.txt" -nt "$program" ] || [ -n "$(find "$root/crates" -mindepth 2 -regex '.*/crates/[^/]*/out' -prune -o -newer "$program" -print -quit)" ]; then
        build "$1"
    fi
}

run() {
    [ "$(uname -m)" = x86_64 ] || fail 'the programs are for x86-64'
    "$(program_of "$1")"
}

# Fails unless there is such a file and it can be read.
need_file() {
    [ -e "$1" ] || fail "no such file: $1"
    [ ! -d "$1" ] && [ -r "$1" ] || fail "not a file that can be read: $1"
}

# Fails where the lines of a book say that it was refused.
need_accepted() {
    case $2 in
    'refused '*) fail "not a book that can be run: $1 (README.md, \"Answers\", has what the two numbers say)" ;;
    esac
}

# Prints the lines of a program for the one book file that the command is given.
put_book_to() {
    local program=$1 lines
    shift
    [ $# -eq 1 ] || fail "usage: $command FILE"
    need_file "$1"
    build_if_needed "$program"
    lines=$(run "$program" <"$1") || fail "the program ended with status $?"
    printf '%s\n' "$lines"
    need_accepted "$1" "$lines"
}

# Fails unless this is a file, or a name for one in a folder that there is.
need_place() {
    [ ! -e "$1" ] || [ -f "$1" ] || fail "not a file that can be written: $1"
    [ -d "$(dirname "$1")" ] && [ -w "$(dirname "$1")" ] || fail "not a folder that can be written: $(dirname "$1")"
}

# Prints the lines of a program for a book file, and stores the book that it makes where the run finished. The program tells the book's length
# in a line `book LENGTH`, which the bytes follow. A new file takes the place of the old in one step, so that there is never half a book.
carry_book_with() {
    local program=$1 lines found at length
    shift
    [ $# -eq 2 ] || fail "usage: $command FILE OUT"
    need_file "$1"
    need_place "$2"
    build_if_needed "$program"
    made=$(mktemp -d)
    trap 'rm -rf "$made" ${new:+"$new"}' EXIT
    run "$program" <"$1" >"$made/all" || fail "the program ended with status $?"
    found=$(LC_ALL=C grep -a -b -m 1 '^book ' "$made/all" || true)
    at=${found%%:*}
    lines=$(head -c "${at:-$(stat -c %s "$made/all")}" "$made/all")
    printf '%s\n' "$lines"
    need_accepted "$1" "$lines"
    if [ -z "$found" ]; then
        printf '%s: the run stopped, so that nothing is written\n' "$command" >&2
        exit 1
    fi
    length=${found##* }
    new=$(mktemp "$2.XXXXXX")
    tail -c "+$((at + ${#found} - ${#at} + 1))" "$made/all" >"$new"
    [ "$(stat -c %s "$new")" = "$length" ] || fail 'the book could not be written whole'
    chmod "$(printf %o $((0666 & ~$(umask))))" "$new"
    mv -f "$new" "$2" || fail "could not be written: $2"
    new=
}
