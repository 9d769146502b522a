#!/usr/bin/env bash
# Runs ftl: ./ftl WORD [PATH..], where ./ftl help has the words. ./ftl prove proves and builds the program, and
# ./ftl install FOLDER puts it into the folder.
#
# The language server is a program of its own, ftl-lsp: ./ftl lsp runs it, ./ftl install FOLDER lsp installs it.
#
# Until ./ftl prove was run, the first use of a word compiles the program without its proof, and later uses run that. To
# prove, and to run or install what is proved, takes as long as the proof once; it says on standard error how far it is.
# What runs was built from the sources as they are: an older program is never run.
set -euo pipefail
unset CDPATH
self="${BASH_SOURCE[0]}"
[ ! -L "$self" ] || self="$(readlink -f "$self")"
case "$self" in */*) top="${self%/*}" ;; *) top=. ;; esac
page="$top/crates/ftl_program/help.txt"
words="check|format|runtime|json|from-json|lint|compare|lsp|help|check-two|format-two"
usage="usage: ftl $words"
install_usage="usage: ./ftl install FOLDER [lsp]"
room="" job=""
# the program's name, its crate, where it is put once it is built, and whether it is proved before
name=ftl crate=ftl_program
made="" is_proved=yes

say() { printf 'ftl: %s\n' "$*" >&2; }

# Says why there is no program, and ends with a status of its own.
fail() { say "$*"; exit 70; }

# The sources of the crates, which are set, each with its size and the time of its last change; for a shell of its own.
listing() {
    local crate part folders=()
    for crate in "${crates[@]}"; do
        for part in src specs proofs; do [ ! -d "$top/crates/$crate/$part" ] || folders+=("$top/crates/$crate/$part"); done
    done
    exec find "$top/crates.txt" "${folders[@]}" -type f -printf '%P %s %C@\n'
}

# Whether the program was built from sources of the sizes and times of those that are there.
is_current() {
    [ -x "$made/$name" ] && read -r -a crates 2>/dev/null <"$made/crates" && cmp -s <(listing) "$made/listing"
}

# One sum of all the text that the program is made from, in this folder or in a copy.
sum_of_sources() (
    cd "$1"
    find $(printf 'crates/%s ' "${crates[@]}") -name out -prune -o -type f \( -name '*.rt' -o -name '*.antt' \) -print0 |
        sort -z | xargs -0 sha256sum | cat - <(grep -E "^($(IFS='|'; echo "${crates[*]}"))[ :]" crates.txt) | sha256sum
)

# Whether the program was built from just the sources that are there.
is_same() { [ -x "$made/$name" ] && [ "$(sum_of_sources "$top")" = "$(cat "$made/built-from" 2>/dev/null)" ]; }

# Ends what was begun.
leave() {
    [ -z "$job" ] || { kill -TERM -- "-$job" && wait "$job"; } 2>/dev/null || true
    [ -z "$room" ] || rm -rf "$room" "$room.log"
}

interrupt() {
    trap - INT TERM HUP
    [ -n "$is_proved" ] || { say "interrupted: the next use compiles the program"; exit 130; }
    leave
    forecast 2>/dev/null || true
    say "interrupted: what was proved is kept, and the next use goes on from there"
    exit 130
}

# Notes in how many minutes the program would be proved.
forecast() { "$top/scripts/prove" --forecast "$crate" >"$top/crates/$crate/out/unproved/minutes"; }

# Compiles the program without its proof, in a copy, and notes how long the proof will take.
compile() {
    room="$(mktemp -d)"
    "$top/scripts/stage" "$room" "$crate"
    set -m
    "$top/scripts/unproved" "$room" "$crate" "$made/$name.made" </dev/null >"$made/seconds.new" 2>"$room.log" 9>&- &
    job=$!
    set +m
    wait "$job" || { job=""; cat "$room.log" >&2; fail "the program was not compiled"; }
    job=""
    rm -f "$made/built-from" "$made/listing"
    mv "$made/seconds.new" "$made/seconds"
    forecast
    mv "$made/$name.made" "$made/$name"
    sum_of_sources "$room" >"$made/built-from"
    leave
    room=""
}

# Says how far it is, as the lines of scripts/prove come.
tell() { sed -un 's/.* of .* crates, .*/ftl: &/p' >&2; }

# Proves and builds the program, in a copy. The libraries were built of the sources in the copy, or it builds them anew.
build() {
    room="$(mktemp -d)"
    set -m
    "$top/scripts/prove" --in "$room" "$crate" </dev/null > >(tee "$room.log" | tell) 2>&1 9>&- &
    job=$!
    set +m
    wait "$job" || { job=""; cat "$room.log" >&2; fail "the program was not built"; }
    job=""
    cp "$room/crates/$crate/out/$crate" "$made/$name.new"
    rm -f "$made/built-from" "$made/listing"
    mv "$made/$name.new" "$made/$name"
    sum_of_sources "$room" >"$made/built-from"
    leave
    room=""
}

# Makes a program of the sources that are there, unless another run does, and notes their sizes and times.
renew() {
    local listed
    mapfile -t crates < <("$top/scripts/crates" "$crate")
    listed="$(listing)"
    if ! is_same; then
        command -v rt >/dev/null || fail "the program is not built yet, and the Rattle toolchain, which builds it, is not there (no rt on the PATH)"
        { mkdir -p "$made" && exec 9>"$made/lock"; } 2>/dev/null || fail "the program is not built yet, and $top cannot be written to"
        flock -n 9 || { say "another ftl builds the program: waiting for it"; flock 9; }
        trap leave EXIT
        trap interrupt INT TERM HUP
        until listed="$(listing)"; is_same; do
            if [ -n "$is_proved" ]; then
                say "proving the program $name, which is kept: later uses start at once"
                build
            else
                say "compiling the program $name without its proof, in some minutes; it is kept: later uses start at once"
                compile
            fi
        done
        trap - EXIT INT TERM HUP
        exec 9>&-
    fi
    { echo "${crates[*]}" >"$made/crates" && echo "$listed" >"$made/listing.new" && mv "$made/listing.new" "$made/listing"; } 2>/dev/null || true
}

refuse() {
    [ -z "${1-}" ] || printf "ftl: unrecognized word '%s'\n" "$1" >&2
    echo "$usage" >&2
    exit 2
}

is_word() { [[ "$1" =~ ^[a-z-]+$ && "|$words|" == *"|$1|"* ]]; }

# Says how a program is installed, and ends: well where that was asked for.
explain_install() {
    if [[ "$1" == --help || "$1" == -h ]]; then echo "$install_usage"; exit; fi
    echo "$install_usage" >&2
    exit 2
}

# Says which program runs.
say_version() {
    head -n 1 "$page"
    made="$top/crates/$crate/out"
    if is_current 2>/dev/null; then echo "proved on this machine"; else echo "not proved on this machine; ./ftl prove proves it"; fi
}

install_to="" prove_only=""
if [ "${1-}" = prove ]; then
    [ "$#" = 1 ] || { echo "usage: ./ftl prove" >&2; exit 2; }
    prove_only=yes
elif [ "${1-}" = install ]; then
    [[ "$#" = 2 || ( "$#" = 3 && "$3" = lsp ) ]] && [[ "$2" != -* && -n "$2" ]] || explain_install "${2-}"
    install_to="$2"
    shift 2
elif [ "$#" = 1 ] && [[ "|help|--help|-h|--version|" == *"|$1|"* ]]; then
    if [ "$1" = --version ]; then say_version; else cat "$page"; fi
    exit
elif [ "${1-}" = help ]; then
    [ "$2" != help ] && is_word "$2" || refuse "$2"
else
    [ "$#" != 0 ] || refuse
    is_word "$1" || refuse "$1"
fi
if [ "${1-}" = lsp ]; then
    name=ftl-lsp crate=ftl_lsp_program
    shift
fi
made="$top/crates/$crate/out"
if [ -z "$install_to$prove_only" ] && [ "$name" = ftl ] && [ ! -x "$made/$name" ]; then
    made="$made/unproved" is_proved=""
fi
is_current || renew
if [ -n "$prove_only" ]; then
    say "the program is proved"
    exit
fi
if [ -n "$install_to" ]; then
    mkdir -p "$install_to"
    cp "$made/$name" "$install_to/.$name-new-$$"
    mv -f "$install_to/.$name-new-$$" "$install_to/$name"
    [ "$name" = ftl-lsp ] || say "installed; the language server for editors is installed by: ./ftl install $install_to lsp"
    exit
fi
# With eight times the stack, five times the nesting. What is compiled without its proof takes more stack for a level.
nesting=""
if ulimit -S -s 65536 2>/dev/null; then
    [ -z "$is_proved" ] || nesting=10000
else
    [ -n "$is_proved" ] || nesting=1000
fi
[ -n "$is_proved" ] || say "not proved on this machine; ./ftl prove proves it, in about $(cat "$made/minutes") minutes"
if [[ -n "$nesting" && "$name" = ftl && "|from-json|help|" != *"|$1|"* && " $* " != *" --nesting"* ]]; then
    set -- "$1" --nesting "$nesting" "${@:2}"
fi
exec "$made/$name" "$@"
