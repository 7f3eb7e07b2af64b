#!/usr/bin/env bash
# Builds the Debian packages by dist/package, installs them, and builds and runs a program over what they installed. It
# installs them by dpkg in a system of its own, which mmdebstrap makes; that needs root, and a mirror as apt has it. Where
# that can't be had, it unpacks them in a folder. It needs dpkg-buildpackage, debhelper, a C compiler and pkg-config, and
# uses lintian where it is there. Without what it needs nothing is tested, and a line says so. The last line is
# 'N passed, M failed'.
set -uo pipefail
cd "$(dirname "$0")" || exit 1
script=dist/tests/package.sh
. ../../tests/counted
. ../../tests/licence
room=$(mktemp -d) || exit 1
trap 'rm -rf --one-file-system "$room"' EXIT
root=$room/root

# Prints the programs among those named that are not there.
list_missing() {
    local name
    for name in "$@"; do command -v "$name" >/dev/null || echo "$name"; done
}

# Makes a small Debian system in $root, of the release and by the mirror of this one, in ten minutes at most.
make_system() {
    local source
    [ "$(id -u)" = 0 ] && [ -z "$(list_missing mmdebstrap)" ] || return
    # shellcheck disable=SC2016 # the dollars are of apt-get
    source=$(apt-get indextargets --format '$(CODENAME) $(REPO_URI)' 'Created-By: Packages' 'Component: main' | head -n 1)
    # shellcheck disable=SC2086 # words
    [ -n "$source" ] &&
        timeout 600 mmdebstrap --variant=essential ${source% *} "$root" ${source#* } >"$room/bootstrapped" 2>&1
}

# Installs or unpacks the packages.
install_by_dpkg() {
    mkdir "$root/packages" &&
        cp "$room"/packages/{libh3-qpack0,libh3-qpack-dev,qpk}_*.deb "$root/packages" &&
        chroot "$root" sh -c 'dpkg --install packages/*.deb'
}
unpack() {
    local package
    for package in "$room"/packages/{libh3-qpack0,libh3-qpack-dev,qpk}_*.deb; do dpkg -x "$package" "$root" || return; done
}

# Runs a program of $root, in the system there or over the library that was unpacked.
run_there() {
    local program=$1
    shift
    if [ "$system" = yes ]; then
        chroot "$root" "$program" "$@"
    else
        LD_LIBRARY_PATH=$libraries "$root$program" "$@"
    fi
}

# Builds the small program of users/ over what was installed, with more words for pkg-config, and runs it there.
try_program() {
    local flags
    flags=$(PKG_CONFIG_LIBDIR=$libraries/pkgconfig PKG_CONFIG_SYSROOT_DIR=$root PKG_CONFIG_ALLOW_SYSTEM_CFLAGS=1 \
        PKG_CONFIG_ALLOW_SYSTEM_LIBS=1 pkg-config --cflags --libs "$@" h3_qpack) || return
    # shellcheck disable=SC2086 # words
    cc users/main.c $flags -o "$root/main" && [ "$(run_there /main)" = 0000d1 ]
}

# The same program with the static library: it runs without the shared one.
try_statically() {
    cc users/main.c -I"$root/usr/include" "$libraries/libh3_qpack.a" -o "$root/main" &&
        ! readelf -d "$root/main" | grep h3_qpack && [ "$(run_there /main)" = 0000d1 ]
}

# The program, and the script that runs it, which reads a word of its own.
try_qpk() {
    [ "$(printf ':method\tGET\n' | run_there /usr/bin/qpk encode)" = 0000d1 ] &&
        printf 'b 4 0000d1\n' | run_there /usr/bin/qpk show --color=never - | grep -x '  2 static 17, :method: GET'
}

# The manual page and the completions are where man, bash and zsh look.
check_files() {
    local share=$root/usr/share
    zcat "$share/man/man1/qpk.1.gz" | cmp - ../../tool/qpk.1 &&
        cmp "$share/bash-completion/completions/qpk" ../../tool/completions/qpk.bash &&
        cmp "$share/zsh/vendor-completions/_qpk" ../../tool/completions/_qpk
}

# The copyright of each package has the notices of the licence.
check_copyright() {
    local package
    for package in libh3-qpack0 libh3-qpack-dev qpk; do has_notices "$root/usr/share/doc/$package/copyright" || return; done
}

# Runs lintian, which finds no error and nothing to warn of.
run_lintian() {
    lintian --allow-root --fail-on error,warning "$room"/packages/*.changes
}

missing=$(list_missing dpkg-buildpackage dh cc pkg-config | paste -s -d ' ')
if [ -n "$missing" ]; then
    not_shown "the Debian packages" "without $missing"
    tell_count
    exit
fi
mkdir "$room/packages" "$root"
try "build the packages" ../package "$room/packages" || { tell_count; exit; }
if [ -z "$(list_missing lintian)" ]; then
    try "lintian" run_lintian
else
    not_shown "what lintian says of the Debian packages" "without lintian"
fi
libraries=$root/usr/lib/$(dpkg-architecture -qDEB_HOST_MULTIARCH)
if make_system; then
    system=yes
    try "install the packages" install_by_dpkg
else
    system=no
    rm -rf --one-file-system "$root" && mkdir "$root"
    echo "$script: the packages are unpacked in a folder, as mmdebstrap made no system"
    try "unpack the packages" unpack
fi
try "a program over the shared library" try_program
try "a program over the static library" try_statically
try "qpk" try_qpk
try "the manual page and the completions" check_files
try "the copyright of each package" check_copyright
tell_count
