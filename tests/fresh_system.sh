#!/usr/bin/env bash
# Runs the commands of README, USING and FAQ, by tests/snippets.py, and then README's ./test, in a Debian system of their own
# that has a C and a C++ compiler, make, pkg-config, cargo, Go and Python: as a user who is not root, without a network,
# without this library and without the kit:
#   tests/fresh_system.sh [FOLDER]     keeps the system in FOLDER, or makes it again where there is none
# mmdebstrap makes the system; that needs root, a mirror as apt has it, 2 GB and some minutes. Without it nothing is
# tested, and a line says so. The last line is 'N passed, M failed'.
set -uo pipefail
top=$(cd "$(dirname "$0")/.." && pwd)
script=tests/fresh_system.sh
. "$top/tests/counted"
. "$top/tests/fresh_system"
room=$(mktemp -d) || exit 1
trap 'rm -rf --one-file-system "$room"' EXIT
root=${1:-$room/root}

# There is no root, no network, no kit and no library there.
check_system() {
    [ "$(run_there id -u)" = "$user" ] && ! run_there sh -c 'command -v rt' &&
        [ "$(run_there sh -c 'tail -n +3 /proc/net/dev | cut -d : -f 1 | tr -d " "')" = lo ] &&
        [ -z "$(run_there sh -c 'ls -d /usr/lib/*/*h3_qpack* /usr/local/lib/*h3_qpack* /usr/include/h3_qpack* 2>/dev/null')" ]
}

# Every command is run, and none is left out.
run_snippets() {
    run_there python3 /home/someone/h3_qpack/tests/snippets.py | tee "$room/ran" && grep '^snippets: 0 faults' "$room/ran" &&
        ! grep -E 'nothing was run|not run, without' "$room/ran"
}

# All tests that need no kit. None may fail.
run_tests() {
    run_there sh -c 'cd /home/someone/h3_qpack && ./test' | tee "$room/tested"
    tail -n 1 "$room/tested" | grep -E '^[0-9]+ passed, 0 failed'
}

if [ "$(id -u)" != 0 ] || ! command -v mmdebstrap >/dev/null; then
    not_shown "the commands of the documents in a system of their own" "without root and mmdebstrap"
    tell_count
    exit
fi
[ -d "$root/usr" ] || try "make the system" make_system || { tell_count; exit; }
try "copy the repository" copy_repository &&
    try "no root, network, kit or library" check_system &&
    try "the commands of README, USING and FAQ" run_snippets && tail -n 1 "$room/told" &&
    try "./test" run_tests && tail -n 1 "$room/told"
tell_count
