#!/bin/sh
# Holds what ./qpk answers against what is written below, in a copy of the repository in which nothing is built. It takes ten
# seconds, and ends with status 1 if an answer is another.
# shellcheck disable=SC2317 # the cases are called by their names
here=$(cd "$(dirname "$0")/../.." && pwd) || exit 1
room=$(mktemp -d) || exit 1
trap 'rm -rf "$room"' EXIT
failed=0
tab=$(printf '\t')
line='
'
usage="usage: qpk encode | qpk decode LIMIT | qpk run CAPACITY LIMIT | qpk inspect CAPACITY$line"

# Copies the sources, in which nothing is proved or built, to a folder of the room.
copy() {
    mkdir "$room/$1"
    (cd "$here" && tar --exclude=./.git --exclude=out --exclude=./c/build --exclude=./dist/build --exclude=target -cf - .) |
        tar -xf - -C "$room/$1"
}

# Tells what is other than it should be, and goes on.
complain() {
    echo "launcher: $*"
    failed=1
}

# Holds a file against the lines $3, where they are no minus.
holds() {
    [ "$3" = - ] || printf '%s' "$3" | cmp -s - "$2" && return
    complain "$1 of $case"
    cat "$2"
}

# Runs a case, the function $1, by the script $qpk: its status, its output and what it says on standard error.
try() {
    case=$1
    "$1" >"$room/output" 2>"$room/said"
    echo "$?" >"$room/status"
    holds "the status" "$room/status" "$2"
    holds "the output" "$room/output" "$3"
    holds "what is said" "$room/said" "$4"
}

encode() { printf ':method\tGET\n' | "$qpk" encode; }
decode() { echo 0000d1 | "$qpk" decode 42; }
decode_past_the_limit() { echo 0000d1 | "$qpk" decode 41; }
late_input() { (sleep 3 && printf ':method\tGET\n' && sleep 3) | "$qpk" encode; }
no_input() { "$qpk" encode </dev/null; }
closed_input() { "$qpk" encode <&-; }
closed_output() { printf ':method\tGET\n' | "$qpk" encode >&-; }
full_output() { printf ':method\tGET\n' | "$qpk" encode >/dev/full; }
returned() { printf ':method\tGET\r\n' | "$qpk" encode; }
bad_number() { "$qpk" decode 12x </dev/null; }
closed_faults() { echo 0000d1 | "$qpk" decode 41 2>&-; }
full_faults() { echo 0000d1 | "$qpk" decode 41 2>/dev/full; }
needless_faults() { echo 0000d1 | "$qpk" decode 42 2>&-; }
run_script() { printf 'encode\t4\tfoo\tbar\ntodecoder\t7\ndecode\t4\n' | "$qpk" run 4096 1; }
inspect() { printf 'e\t6294e7838c767f01\n' | "$qpk" inspect 4096; }
show() { printf 'b\t4\t0000d1\n' | "$qpk" show; }
show_recording() { printf '\0\0\0\0\0\0\0\004\0\0\0\003\0\0\321' | "$qpk" show --qif; }
show_file() { printf '# a recording\nb 4 0000d1\n' >"$room/recording" && "$qpk" show --max-capacity 0 "$room/recording" </dev/null; }
show_no_file_faults() { "$qpk" show "$room/none" </dev/null; }
check() { printf 'd 00\n' | "$qpk" check -; }
explain() { "$qpk" explain --max-capacity 64 0000 d1 </dev/null; }
explain_input() { echo 84 | "$qpk" explain --decoder-stream; }
words_with_blanks() { "$qpk" 'decode 42' "it's \"one\"" '' </dev/null; }
no_words() { "$qpk" </dev/null; }
help() { "$qpk" --help </dev/null; }

try_all() {
    try encode "0$line" "0000d1$line" ""
    try decode "0$line" ":method${tab}GET${line}size 42$line" ""
    try decode_past_the_limit "1$line" "" "qpk: refused: header too long$line"
    try late_input "0$line" "0000d1$line" ""
    try no_input "0$line" "0000$line" ""
    try closed_input "1$line" "" "qpk: refused: input$line"
    try closed_output "1$line" "" "qpk: refused: output$line"
    try full_output "1$line" "" "qpk: refused: output$line"
    try returned "0$line" - ""
    try bad_number "1$line" "" "$usage"
    try closed_faults "1$line" "" -
    try full_faults "1$line" "" -
    try needless_faults "0$line" ":method${tab}GET${line}size 42$line" -
    try run_script "0$line" "encoded 1 028010 6294e7838c767f${line}received 1 01${line}decoded 38 1${line}foo${tab}bar$line" ""
    try inspect "1$line" "insert literal 666f6f 626172$line" "qpk: refused: dynamic table error: BadRelativeIndex(1)$line"
    try show "0$line" "section 4: required insert count 0, base 0${line}  2 static 17, :method: GET$line" ""
    try show_recording "0$line" "section 4: required insert count 0, base 0${line}  2 static 17, :method: GET$line" ""
    try show_file "0$line" "section 4: required insert count 0, base 0${line}  2 static 17, :method: GET$line" ""
    try show_no_file_faults "1$line" "" "qpk: $room/none is not a file that can be read$line"
    try check "1$line" - ""
    try explain "0$line" - ""
    try explain_input "0$line" "   0  84  1 0000100     acknowledge a section of stream 4$line" ""
    try words_with_blanks "1$line" "" "$usage"
    try no_words "1$line" "" "$usage"
    try help "0$line" - ""
}

# Whether a call ended with a status and printed an output, and a pattern is found in what it said; it said nothing if that
# is empty.
is_got() {
    [ "$got" -eq "$1" ] && [ "$(cat "$room/output")" = "$2" ] || return
    if [ -z "$3" ]; then
        [ ! -s "$room/said" ]
    else
        grep -q -- "$3" "$room/said"
    fi
}

# Runs a command in the folder $copy, over a field, and holds it against a status, an output and a pattern of what it says.
try_choice() {
    case=$1 status=$2 output=$3 said=$4
    shift 4
    (cd "$copy" && printf ':method\tGET\n' | "$@") >"$room/output" 2>"$room/said"
    got=$?
    is_got "$status" "$output" "$said" || complain "$case: status $got, $(cat "$room/output" "$room/said")"
}

# How the program is built, and why there is none.
try_choices() {
    version="qpk [0-9.]*: generated from the proved program by rattle-kit-.*"
    try_choice "the first call" 0 0000d1 '' ./qpk encode
    try_choice "the second call, without make" 0 0000d1 '' env PATH="$room/few" ./qpk encode
    ln -s "$copy/qpk" "$room/linked"
    try_choice "a call through a link" 0 0000d1 '' "$room/linked" encode
    rm -r "$copy/dist/build"
    (cd "$copy" && script -qec './qpk --version' /dev/null </dev/null) |
        grep -q '^qpk: built from the assembly in dist/' || complain "the first call on a terminal"
    try_choice "full faults" 0 0000d1 '' sh -c 'rm -r dist/build && ./qpk encode 2>/dev/full'
    (cd "$copy" && ./qpk --version) | grep -qx "$version" || complain "--version"
    echo '// edited' >>"$copy/crates/qpk/src/lib.rt"
    (cd "$copy" && ./qpk --version) | grep -qx 'the sources here were changed since' || complain "--version of an edited source"
    try_choice "an edited source" 0 0000d1 '' ./qpk encode
    cp "$here/crates/qpk/src/lib.rt" "$copy/crates/qpk/src/lib.rt"
    printf 'garbage\n' >"$copy/$text"
    try_choice "other assembly, which is newer" 3 '' '^qpk: no answer: ' ./qpk encode
    cp "$here/$text" "$copy/$text"
    rm -rf "$copy/dist/build"
    try_choice "no compiler" 3 '' '^qpk: no answer: .*none' env CC=none ./qpk encode
    try_choice "a compiler that fails" 3 '' '^qpk: no answer: ' env CC="$room/failing" ./qpk encode
    try_choice "no make" 3 '' '^qpk: no answer: there is no make, which builds the program$' env PATH="$room/few" ./qpk encode
    rm -rf "$copy/dist/build"
    touch "$copy/dist/build"
    try_choice "no folder" 3 '' "^qpk: no answer: a build can't be kept in " ./qpk encode
    rm "$copy/dist/build"
    calls=
    for _ in 1 2 3 4; do
        "$copy/qpk" help >/dev/null 2>&1 &
        calls="$calls $!"
    done
    for call in $calls; do wait "$call" || complain "first calls at once"; done
}

# A build is kept in the cache where dist/ can't be written. Root can write everywhere, so it tries as nobody.
try_cache() {
    [ "$(id -u)" -eq 0 ] && command -v setpriv >/dev/null || return
    chmod 755 "$room"
    mkdir -m 777 "$room/cache"
    as_nobody="setpriv --reuid=65534 --regid=65534 --clear-groups env XDG_CACHE_HOME=$room/cache"
    # shellcheck disable=SC2086 # words of a command
    try_choice "the first call over the cache" 0 0000d1 '' $as_nobody ./qpk encode
    # shellcheck disable=SC2086
    try_choice "the second call over the cache" 0 0000d1 '' $as_nobody ./qpk encode
    [ ! -e "$copy/dist/build" ] || complain "a build is kept in dist/, which can't be written"
    ls "$room"/cache/h3_qpack/qpk >/dev/null || complain "no build is kept in the cache"
}

# Folders with few programs, and a compiler that fails.
make_rooms() {
    printf '#!/bin/sh\necho this compiler fails\nexit 1\n' >"$room/failing"
    chmod +x "$room/failing"
    mkdir "$room/few"
    for name in sh readlink mkdir mktemp uname rm sed head cut tr dirname basename cat; do
        ln -s "$(command -v "$name")" "$room/few/$name"
    done
}

text=dist/qpk-$(uname -m)-elf.s
copy generated
copy=$room/generated
"$copy/dist/fits" qpk_program || { complain "dist/ was not generated from these sources; dist/generate does it"; exit 1; }
make_rooms
try_cache
try_choices
qpk=$copy/qpk
try_all
[ "$failed" -eq 0 ] && echo "launcher: all is as it should be"
exit "$failed"
