#!/usr/bin/env bash
# Does what eleven people do who come to this repository, by the scripts of tests/roles: each in a copy of its own.
#   tests/roles.sh [--record] FOLDER [NAME..]   in the system that tests/fresh_system.sh FOLDER left: not as root, without a
#                                               network, this library and the kit
#   tests/roles.sh [--record] --here [NAME..]   on this machine, as this user
# A command that fails ends its role. Two roles need the kit, and are left out where it is not. maintains_a_stack needs the
# source of nghttp3, which bindings/source keeps. --record writes the results to docs/roles.tsv, in the place of the row that
# each role has there. The last line is 'N passed, M failed'.
set -uo pipefail
top=$(cd "$(dirname "$0")/.." && pwd)
script=tests/roles.sh
. "$top/tests/counted"
. "$top/tests/fresh_system"
room=$(mktemp -d) || exit 1
trap 'rm -rf --one-file-system "$room"' EXIT
sources=${XDG_CACHE_HOME:-$HOME/.cache}/h3_qpack/sources
records=$top/docs/roles.tsv
is_recorded=
[ "${1:-}" != --record ] || { is_recorded=1; shift; }
[ $# != 0 ] || { echo "usage: tests/roles.sh [--record] FOLDER|--here [NAME..]" >&2; exit 2; }
root=$1
shift

# Whether a role can be played there: one that needs the kit, only on this machine and where rt is.
can_play() {
    ! head -n 2 "$top/tests/roles/$1.sh" | grep -q 'Needs the kit' || { [ "$root" = --here ] && command -v rt >/dev/null; }
}

# Copies the repository, and the sources that were fetched, to the home of the user.
prepare() {
    if [ "$root" = --here ]; then
        home=$room/home/someone
        rm -rf --one-file-system "$home" && mkdir -p "$home/h3_qpack" && copy_files "$home/h3_qpack"
    else
        home=$root/home/someone
        copy_repository && mkdir -p "$home/.cache/h3_qpack" &&
            { [ ! -d "$sources" ] || cp -r "$sources" "$home/.cache/h3_qpack/"; } && chown -R "$user:$user" "$home"
    fi
}

# Runs a role in a clone.
play() {
    local commands='fails() { if "$@"; then return 1; fi; }
        export CLONE=$HOME/h3_qpack CARGO_NET_OFFLINE=true GOPROXY=off GOTOOLCHAIN=local
        cd "$CLONE"
        . tests/roles/'$1.sh
    prepare || return
    if [ "$root" = --here ]; then
        HOME=$home XDG_CACHE_HOME=${sources%/h3_qpack/sources} bash -euo pipefail -c "$commands"
    else
        run_there bash -euo pipefail -c "$commands"
    fi
}

# Writes the result of a role and its seconds to its row.
record() {
    local place='this machine'
    [ "$root" = --here ] || place='a system of its own'
    {
        head -n 1 "$records"
        {
            tail -n +2 "$records" | grep -v "^$1	" || true
            printf '%s\t' "$1" "$(date -u +%F)" "$(git -C "$top" rev-parse --short HEAD)" "$place" "$2"
            echo "$3"
        } | sort
    } >"$room/records" && cp "$room/records" "$records"
}

if [ $# = 0 ]; then
    cd "$top/tests/roles" || exit
    set -- *.sh
    set -- "${@%.sh}"
fi
for role in "$@"; do
    can_play "$role" || { not_shown "the role $role" "without the kit"; continue; }
    begun=$SECONDS
    try "$role" play "$role" && result=passed || result=failed
    grep '^not shown: ' "$room/told" || true
    [ -z "$is_recorded" ] || record "$role" "$result" $((SECONDS - begun))
done
tell_count
