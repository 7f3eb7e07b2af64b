#!/usr/bin/env bash
# Builds and runs the small projects of users/, each of which uses the library as its build system does: by pkg-config
# after make install, by CMake and by Meson, installed or in the project's tree, static and shared. Each install has the
# licence. Also builds with flags that change what is built, and where it can't be, looks for the one line that says why. A build
# system that is not there is left out, and a line says so. The last line is 'N passed, M failed'.
set -uo pipefail
cd "$(dirname "$0")" || exit 1
script=dist/tests/users.sh
. ../../tests/counted
. ../../tests/licence
room=$(mktemp -d) || exit 1
trap 'rm -rf "$room"' EXIT
dist=$(cd .. && pwd)
top=$(cd ../.. && pwd)

# Whether the programs that are named are there. Says so where they are not.
has() {
    local name
    for name in "$@"; do
        command -v "$name" >/dev/null || { not_shown "projects that use $*" "without $name"; return 1; }
    done
}

# Runs the program of a project, over the shared library of an install.
run_main() {
    [ "$(LD_LIBRARY_PATH="$room/$1/lib" "$room/$2/main")" = 0000d1 ]
}

# Whether an install has the licence.
has_licence() {
    is_licence "$room/$1/share/licenses/h3_qpack/LICENSE"
}

# Builds by make with more words, and runs what it checks.
build_make() {
    make -s -C "$dist" BUILD="$room/flags.build" clean && make -s -j 4 -C "$dist" BUILD="$room/flags.build" "$@" check
}

# Whether a command fails, and says why in one line that matches. The lines that make and cmake add are left out.
refuse() {
    local line=$1
    shift
    if "$@" >"$room/refused" 2>&1; then echo "this passed: $*"; return 1; fi
    cat "$room/refused"
    [ "$(grep -vcE '^make(\[|:)' "$room/refused")" = 1 ] && grep -E "^dist: $line" "$room/refused"
}

# The same of cmake and meson, which print lines of their own before it, and break it.
refuse_setup() {
    local line=$1
    shift
    if "$@" >"$room/refused" 2>&1; then echo "this passed: $*"; return 1; fi
    cat "$room/refused"
    [ "$(grep -c 'dist: ' "$room/refused")" = 1 ] && tr -s '[:space:]' ' ' <"$room/refused" | grep -E "dist: $line"
}

# Installs, and uninstalls what was installed: no file is left but one that was there, and no folder of the library's.
uninstall() {
    local words=(BUILD="$room/make.build" DESTDIR="$room/a package" PREFIX=/p)
    mkdir -p "$room/a package/p/lib" && touch "$room/a package/p/lib/other" &&
        make -s -C "$dist" "${words[@]}" install && [ -x "$room/a package/p/bin/qpk" ] &&
        make -s -C "$dist" "${words[@]}" uninstall &&
        [ "$(cd "$room/a package" && find . ! -type d)" = ./p/lib/other ] &&
        [ -z "$(find "$room/a package" -name '*h3_qpack*' -o -name tool)" ]
}

# A copy of dist/ alone has all that make check needs, in a folder with a blank too.
check_alone() {
    mkdir "$room/a folder" && tar -C "$dist" --exclude=./build -cf - . | tar -C "$room/a folder" -xf - &&
        make -s -C "$room/a folder" check
}

# Without the tool it installs the program as qpk, and removes it again.
install_alone() {
    local words=(-s -C "$room/a folder" PREFIX="$room/alone")
    make "${words[@]}" install && cmp "$room/a folder/build/qpk" "$room/alone/bin/qpk" && [ ! -e "$room/alone/lib/h3_qpack" ] &&
        [ "$(printf ':method\tGET\n' | "$room/alone/bin/qpk" encode)" = 0000d1 ] &&
        make "${words[@]}" uninstall && [ -z "$(find "$room/alone" ! -type d -o -name '*h3_qpack*')" ]
}

# Installs by make, and builds the project of pkg-config.
use_pkg_config() {
    make -s -C "$dist" BUILD="$room/make.build" PREFIX="$room/make" install && has_licence make &&
        cp -R users "$room/make.users" &&
        make -C "$room/make.users/pkg-config" && run_main make make.users/pkg-config
}

# Moves what was installed, and runs qpk from a link, on a file.
use_qpk() {
    cp -R "$room/make" "$room/moved" && ln -s "$room/moved/bin/qpk" "$room/linked" && echo 'b 4 0000d1' >"$room/recording" &&
        [ "$(printf ':method\tGET\n' | "$room/linked" encode)" = 0000d1 ] &&
        "$room/linked" show "$room/recording" | grep -x '  2 static 17, :method: GET'
}

# The same with other folders, installed in a folder for packages first.
use_qpk_elsewhere() {
    make -s -C "$dist" BUILD="$room/make.build" DESTDIR="$room/package" PREFIX="$room/p" BINDIR="$room/p/b" LIBEXECDIR="$room/p/x" \
        install && mv "$room/package$room/p" "$room/p" && [ "$("$room/p/b/qpk" explain 84 --decoder-stream)" ] &&
        readlink "$room/p/b/qpk-capture" | grep -x "$room/p/x/tool/qpk-capture"
}

# The same with the static library alone.
use_pkg_config_statically() {
    rm "$room"/make/lib/*.so* "$room/make.users/pkg-config/main" && make -C "$room/make.users/pkg-config" &&
        "$room/make.users/pkg-config/main" | grep -x 0000d1
}

# Builds a project of CMake, with more words for cmake.
build_cmake() {
    local source=$1 build=$2
    shift 2
    cmake -S "$source" -B "$room/$build" "$@" && cmake --build "$room/$build"
}

# Installs by CMake, and builds the project that finds it; then the one that has dist/ in its tree.
use_cmake() {
    build_cmake "$dist" "cmake.$1" -DBUILD_SHARED_LIBS="$1" -DCMAKE_INSTALL_PREFIX="$room/cmake-$1" \
        -DCMAKE_INSTALL_LIBDIR=lib && cmake --install "$room/cmake.$1" && has_licence "cmake-$1" &&
        build_cmake users/cmake-installed "found.$1" -DCMAKE_PREFIX_PATH="$room/cmake-$1" &&
        run_main "cmake-$1" "found.$1"
}
use_cmake_in_tree() {
    build_cmake users/cmake-subdirectory "tree.$1" -DBUILD_SHARED_LIBS="$1" && run_main none "tree.$1"
}

# Builds a project of Meson, with more words for meson.
build_meson() {
    local source=$1 build=$2
    shift 2
    meson setup "$source" "$room/$build" "$@" && meson compile -C "$room/$build"
}

# Installs by Meson, and builds the project that finds it; then the one that has dist/ as a subproject.
use_meson() {
    build_meson "$dist" "meson.$1" --default-library="$1" --prefix="$room/meson-$1" --libdir=lib &&
        meson install -C "$room/meson.$1" && has_licence "meson-$1" &&
        PKG_CONFIG_PATH=$room/meson-$1/lib/pkgconfig build_meson users/meson-installed "meson.found.$1" &&
        run_main "meson-$1" "meson.found.$1"
}
use_meson_in_tree() {
    mkdir -p "$room/sub.$1" && cp -R users/. "$room/sub.$1" && mkdir "$room/sub.$1/meson-subproject/subprojects" &&
        ln -s "$dist" "$room/sub.$1/meson-subproject/subprojects/h3_qpack" &&
        PKG_CONFIG_LIBDIR=/nowhere build_meson "$room/sub.$1/meson-subproject" "meson.sub.$1" \
            --default-library="$1" && run_main none "meson.sub.$1"
}

# The flags of a 32-bit processor, for setups that try no program: there may be no C library for it.
refuse_by_cmake() {
    refuse_setup "$1" cmake -S "$dist" -B "$room/cmake.refused.$RANDOM" -DCMAKE_TRY_COMPILE_TARGET_TYPE=STATIC_LIBRARY \
        "${@:2}"
}
refuse_by_meson() {
    printf "[binaries]\nc = 'cc'\nar = 'ar'\n[properties]\nskip_sanity_check = true\n" >"$room/native"
    refuse_setup "$1" meson setup "$dist" "$room/meson.refused.$RANDOM" --native-file "$room/native" "${@:2}"
}

bits='no assembly for .* with pointers of 32 bits .* compile for 64 bits, for a system and a processor'
static='no shared library can be linked with -static: '
if has cc make; then
    try "make check in a copy of dist/ alone" check_alone
    try "make install in a copy of dist/ alone" install_alone
    try "make uninstall" uninstall
    for flags in LDFLAGS=-static LDFLAGS=-pie 'CFLAGS=-O1 -fsanitize=address,undefined' 'CFLAGS=-O2 -g -flto'; do
        try "make $flags" build_make "$flags"
    done
    try "make BUILD with a blank" refuse "make has no folder '.*/a b': set BUILD" make -s -C "$dist" BUILD="$room/a b"
    try "make, no compiler" refuse 'no C compiler: none ' build_make CC=none
    if [ "$(uname -m)" = x86_64 ]; then
        for flags in 'CC=cc -m32' 'CC=cc -mx32' 'CFLAGS=-O2 -m32'; do
            try "make $flags" refuse "$bits" build_make "$flags"
        done
    fi
fi
if has cc make pkg-config; then
    export PKG_CONFIG_PATH=$room/make/lib/pkgconfig
    try "pkg-config, shared" use_pkg_config
    try "pkg-config, static" use_pkg_config_statically
    try "qpk, moved" use_qpk
    try "qpk, in other folders" use_qpk_elsewhere
fi
if has cc make cmake; then
    for shared in OFF ON; do
        try "CMake, find_package, BUILD_SHARED_LIBS=$shared" use_cmake "$shared"
        try "CMake, add_subdirectory, BUILD_SHARED_LIBS=$shared" use_cmake_in_tree "$shared"
        try "CMake, a sanitizer, BUILD_SHARED_LIBS=$shared" build_cmake "$dist" "cmake.sanitized.$shared" \
            -DBUILD_SHARED_LIBS="$shared" -DCMAKE_C_FLAGS=-fsanitize=address
    done
    try "CMake, -static" refuse_by_cmake "$static" -DBUILD_SHARED_LIBS=ON -DCMAKE_SHARED_LINKER_FLAGS=-static
    [ "$(uname -m)" != x86_64 ] || try "CMake, -m32" refuse_by_cmake "$bits" -DCMAKE_C_FLAGS=-m32
fi
if has cc meson ninja pkg-config; then
    for kind in static shared; do
        try "Meson, installed, $kind" use_meson "$kind"
        try "Meson, subproject, $kind" use_meson_in_tree "$kind"
        try "Meson, a sanitizer, $kind" build_meson "$dist" "meson.sanitized.$kind" --default-library="$kind" \
            -Dc_args=-fsanitize=address
    done
    try "Meson, -static" refuse_by_meson "$static" -Dc_link_args=-static
    [ "$(uname -m)" != x86_64 ] || try "Meson, -m32" refuse_by_meson "$bits" -Dc_args=-m32
fi
tell_count
