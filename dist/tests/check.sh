#!/usr/bin/env bash
# Plants faults in a copy of dist/ and of its sources, and has dist/check find each: it names the file, and its status is
# not 0. Each fault has its sum in SUMS. The copy has stand-ins for the objects that were proved: what the kit's clang
# makes of the assembly before the fault, or where others are made of a module what it makes of small functions. Without the kit nothing is
# shown, and a line says so. The last line is 'N passed, M failed'.
# shellcheck disable=SC2046,SC2086 # the names of files are words
set -uo pipefail
cd "$(dirname "$0")/../.." || exit 1
script=dist/tests/check.sh
. tests/counted
room=$(mktemp -d) || exit 1
trap 'rm -rf "$room"' EXIT
top=$room/tree
. dist/lists

# Copies what dist/check reads, without what is built.
copy_tree() {
    mkdir "$top" "$top/c" &&
        tar --exclude=out --exclude=must-fail --exclude=dist/build -cf - \
            crates.txt LICENSE crates dist .ci c/examples | tar -xf - -C "$top"
}

# Writes SUMS of the files, the sources and the kit that are here.
write_sums() {
    local crate
    {
        echo "version 0.0.0"
        echo "kit $kit_here"
        for crate in h3_qpack_c qpk_program; do echo "sources $crate $("$top/dist/sources" "$crate")"; done
        (cd "$top/dist" && sha256sum -- $(list_made))
    } >"$top/dist/SUMS"
}

# Prints the files that SUMS has sums of.
list_made() {
    { list_texts && list_ports && list_wasm && list_heaps && list_copies; } | cut -d ' ' -f 1
}

# Makes the copy one in which nothing differs: the copies, the assembly of heap.c, the objects and SUMS.
make_equal() {
    local file original target
    while read -r file original _; do
        [ "dist/$file" = "$original" ] || cp "$top/$original" "$top/dist/$file" || return
    done < <(list_copies)
    (
        . "$top/dist/texts"
        kit=$(dirname "$(rt doc)")
        while read -r file target; do write_heap "$file" "$target" >"$top/dist/$file" || exit; done < <(list_heaps)
        while read -r file crate target _; do
            if list_modules | grep -qxF "$file"; then
                stand_in "$file" "$crate" "$target" || exit
            else
                assemble "$file" "$crate" "$target" || exit
            fi
        done < <(list_texts)
        while read -r file of target; do port "$file" "$of" "$target" || exit; done < <(list_ports)
        while read -r file of; do
            write_wasm "$file" "$top/$(name_module "$of")" >"$top/dist/$file" || exit
        done < <(list_wasm)
    ) && write_sums
}

# Makes the stand-in of a file's object where dist/check looks for it.
assemble() {
    local object words="--target=$3"
    object=$top/$(name_object "$1" "$2")
    case $3 in x86_64-*) words="$words -march=x86-64-v2" ;; esac
    mkdir -p "${object%/*}" && read_text <"$top/dist/$1" >"$room/text.s" &&
        "$kit/toolchain/bin/clang" $words -c "$room/text.s" -o "$room/object.o" || return
    case $object in
    *.a) rm -f "$object" && ar rc "$object" "$room/object.o" ;;
    *) cp "$room/object.o" "$object" ;;
    esac
}

# Prints small functions in C: one, and what a module for WebAssembly is linked by, the program's main, which names an
# instruction of aarch64, or the library's own exports. The word is the crate.
write_functions() {
    printf '%s\n' 'void *realloc(void *, unsigned long);' 'char *f(char *p, long n) {' 'if (n == 77) n = 1234;' \
        'p = realloc(p, n);' 'return p ? p + n : 0;' '}'
    if [ "$1" = qpk_program ]; then
        printf '%s\n' 'typedef char bytes __attribute__((vector_size(16)));' \
            'bytes addp(bytes, bytes) __asm__("llvm.aarch64.neon.addp.v16i8");' \
            'int main(void) { char *p = f(0, 1); bytes sums = addp(p[0] - (bytes){}, p[1] - (bytes){}); return sums[0] + sums[8]; }'
    else
        list_exports | "$kit/toolchain/bin/clang" -E -P -DH3_QPACK_NO_INLINE -isystem "$top/dist/wasm64" -xc - |
            tr '\n' ' ' | sed -E 's/(h3q_[a-z_]+\([^()]*\)) *;/\1 { __builtin_trap(); }/g'
    fi
}

# Prints the header without the functions that its bodies share: these h3_qpack.c defines.
list_exports() {
    sed '/^\/\* ---- What the bodies below share/,/^#ifdef H3Q_HAS_BODIES$/{/^#ifdef/!d}' "$top/dist/h3_qpack.h"
}

# Makes the stand-in of the module of a file, with the file and the object that are made of it.
stand_in() {
    local module object
    module=$top/$(name_module "$1")
    object=${module%.ll}
    mkdir -p "${module%/*}" &&
        printf '%s\n' -O2 -fPIC --no-default-config -fno-asynchronous-unwind-tables -x ir >"$module.words" &&
        write_functions "$2" | "$kit/toolchain/bin/clang" "--target=$3" -xc - -O2 -fPIC -fno-asynchronous-unwind-tables -S -emit-llvm -o "$module" &&
        compile_module "$3" "$module" -fno-addrsig -fno-verbose-asm -S | write_text "$3" >"$top/dist/$1" &&
        compile_module "$3" "$module" -c >"$room/object.o" || return
    case $object in
    *.a) rm -f "$object" && ar rc "$object" "$room/object.o" ;;
    *) cp "$room/object.o" "$object" ;;
    esac
}

# Makes what is compiled from the module of another file.
port() {
    { echo "/* planted */" && write_port "$1" "$top/$(name_module "$2")" "$3"; } >"$top/dist/$1"
}

# Runs dist/check of the copy. Holds it to a status, and to the files and crates that it names, and no others.
expect() {
    local status
    "$top/dist/check" >"$room/checked" 2>&1
    status=$?
    cat "$room/checked"
    [ "$status" = "$1" ] || { echo "the status is $status, and not $1"; return 1; }
    shift
    diff <(list_named <"$room/checked") <(printf '%s\n' "$@" | sed '/^$/d' | sort -u)
}

# Prints the files and the crates that dist/check names.
list_named() {
    sed -nE 's/^dist\/check: not compared: ([^ ,]+),.*/\1/p
        s/^dist\/[a-z]+: ([^ ,]+) is not .*/\1/p
        s/^dist\/[a-z]+: the sources of (.*) are not .*/\1/p' | sort -u
}

# Plants a fault by sed in a file of the copy, with its sum in SUMS.
plant() {
    local file=$1
    mkdir -p "$room/kept" && (cd "$top" && cp -p --parents "$file" "$room/kept") && sed -i "$2" "$top/$file" || return
    if cmp -s "$room/kept/$file" "$top/$file"; then echo "$file has nothing to plant a fault in"; return 1; fi
    case $file in
    dist/*) (cd "$top/dist" && sed -i "s/^[0-9a-f]*  ${file#dist/}\$/$(sha256sum -- "${file#dist/}")/" SUMS) ;;
    esac
}

# Puts back what faults were planted in, and SUMS.
put_back() {
    cp -pR "$room/kept/." "$top" && rm -r "$room/kept" && cp "$room/SUMS" "$top/dist/SUMS"
}

# A digit more in each file of assembly, before the first constant that is compared or moved.
refuse_constants() {
    local front
    for file in "$@"; do
        front='\tcmpq\t\$'
        case $file in *aarch64*) front='\tmov\tw[0-9]*, #' ;; esac
        plant "dist/$file" "0,/^$front/s/^$front/&1/" || return
    done
    expect 1 "$@" && put_back
}

# A blank more in the first line of each file.
refuse_blanks() {
    for file in "$@"; do plant "dist/$file" '1s/$/ /' || return; done
    expect 1 "$@" && put_back
}

# A fault in one file, and what is named for it.
refuse() {
    plant "$1" "$2" && shift 2 && expect 1 "$@" && put_back
}

# A file that is not there, and one without a sum.
refuse_lost() {
    mv "$top/dist/$1" "$room/lost" && sed -i "/  $2\$/d" "$top/dist/SUMS" && expect 1 "$1" "$2" &&
        mv "$room/lost" "$top/dist/$1" && cp "$room/SUMS" "$top/dist/SUMS"
}

# An object that is not there, and one that is older than the sources, are not compared with, nor is a lost module.
skip_objects() {
    local lost=$top/crates/h3_qpack_c/out/aarch64-elf older=$top/crates/qpk_program/out/qpk-x86_64-elf
    local module=$top/crates/h3_qpack_c/out/libh3_qpack_c.a.ll
    mv "$lost" "$room/object" && mv "$module" "$room/module" && touch -d 2000-01-01 "$older" &&
        expect 2 aarch64-elf.s qpk-x86_64-elf.s x86_64-coff.s x86_64-macho.s &&
        mv "$room/object" "$lost" && mv "$room/module" "$module" && touch "$older"
}

# Another register or number in each file for another target, a call that leads elsewhere in the one for COFF.
refuse_ports() {
    plant dist/x86_64-coff.s '0,/callq\trealloc/s/callq\trealloc/callq\tmalloc/' &&
        plant dist/aarch64-macho.s '0,/_realloc/s/_realloc/_malloc/' &&
        plant dist/x86_64-macho.s '0,/_realloc/s/_realloc/_malloc/' &&
        plant dist/riscv64-elf.s '0,/realloc/s/realloc/malloc/' &&
        plant dist/aarch64-android-elf.s '0,/x0/s/x0/x1/' && expect 1 $ports && put_back
}

# Another byte in each file for WebAssembly, at its end.
refuse_wasm() {
    local file
    for file in $wasm; do plant "dist/$file" '$s/.$/\x01/' || return; done
    expect 1 $wasm && put_back
}

# Without the kit, and with another, no file that the kit made is compared.
skip_made() {
    local made
    made=$(list_made | grep -E '\.(s|o|wasm)$')
    sed -i 's/^kit .*/kit another/' "$top/dist/SUMS" && expect 2 $made && cp "$room/SUMS" "$top/dist/SUMS" &&
        (PATH=/usr/bin:/bin && ! command -v rt >/dev/null && expect 2 $made)
}

if ! command -v rt >/dev/null; then
    not_shown "what dist/check finds" "without rt, the command of the kit"
    tell_count
    exit
fi
kit_here=$(rt version)
texts=$(list_texts | cut -d ' ' -f 1)
heaps=$(list_made | grep '^heap-')
ports=$(list_ports | cut -d ' ' -f 1)
wasm=$(list_wasm | cut -d ' ' -f 1)
copies='LICENSE roundtrip.c'
try "copy dist/ and its sources" copy_tree && try "make the copy equal" make_equal && try "nothing differs" expect 0 ||
    { tell_count; exit 1; }
cp "$top/dist/SUMS" "$room/SUMS"
# A fault that is not found stays, and the tests after it would fail for it: the first one ends the script.
try "another constant in each file of assembly" refuse_constants $texts &&
    try "another call in each file for another target" refuse_ports &&
    try "another byte in each file for WebAssembly" refuse_wasm &&
    try "a blank in each other file" refuse_blanks $heaps $copies &&
    try "another body in heap.c" refuse dist/heap.c 's/malloc(len ? len : align)/malloc(len)/' $heaps &&
    try "another setting in h3_qpack.c" refuse dist/h3_qpack.c 's/capacity = 16384/capacity = 8192/' wasm64.wasm &&
    try "another body in the header" refuse dist/h3_qpack.h 's/\(h3q_encoder_blocked(encoder) :\) 0/\1 1/' wasm64.wasm &&
    try "another heap for WebAssembly" refuse dist/heap_wasm64.c 's/HEAD + 16/HEAD + 32/' wasm64.wasm qpk-wasm64.wasm &&
    try "another instruction for WebAssembly" refuse dist/neon_wasm64.c 's/2 \* i + 1/2 * i/' qpk-wasm64.wasm &&
    try "os.c that is not there, and heap.c without a sum" refuse_lost os.c heap.c &&
    try "objects that are not there, or older" skip_objects &&
    try "no kit, and another kit" skip_made &&
    try "a comment in a source of both crates" refuse crates/qpack_base/src/bytes.rt '$a // planted' \
        h3_qpack_c qpk_program $texts $ports $wasm
tell_count
