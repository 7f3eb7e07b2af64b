#!/usr/bin/env bash
# Makes a release by dist/release, with a key of its own that is thrown away, and holds it to what a user does: verifies the
# signature and the sums, unpacks, builds, compares the sums of the build, and compares the list of contents. With --in
# FOLDER it unpacks and builds in a system that is there, as tests/fresh_system.sh leaves one. Faults that are planted must be
# found. It needs what dist/release needs, and gpg, without which nothing is tested. The last line is 'N passed, M failed'.
set -uo pipefail
cd "$(dirname "$0")" || exit 1
script=dist/tests/release.sh
. ../../tests/counted
room=$(mktemp -d) || exit 1
trap 'gpgconf --homedir "$room/keys" --kill all 2>/dev/null; rm -rf --one-file-system "$room"' EXIT
system=''
[ "${1-}" != --in ] || system=${2:?usage: dist/tests/release.sh [--in FOLDER]}
version=$(sed -n 's/^version //p' ../SUMS)
made=$room/made
key='Thrown Away <thrown.away@example.org>'

make_key() {
    mkdir -m 700 "$room/keys" && gpg --batch --passphrase '' --quick-gen-key "$key" default default 1d
}

make_release() {
    ../release "$version" "$made" --trial --sign "$key" && ls -l "$made"
}

# A second run writes the same archive, builds and contents.
make_again() {
    ../release "$version" "$room/again" --trial && cmp "$made/SHA256SUMS" "$room/again/SHA256SUMS" &&
        [ ! -e "$room/again/SHA256SUMS.asc" ]
}

# What someone does who downloaded it.
verify() {
    (cd "$made" && gpg --batch --verify SHA256SUMS.asc SHA256SUMS && sha256sum --check --strict SHA256SUMS)
}

# A changed sum, and a changed archive, are found.
find_changes() {
    local changed=$room/changed
    cp -r "$made" "$changed" && echo >>"$changed/SHA256SUMS" &&
        ! gpg --batch --verify "$changed/SHA256SUMS.asc" "$changed/SHA256SUMS" &&
        printf x >>"$changed/h3_qpack-$version.tar.gz" && ! (cd "$changed" && sha256sum --check "$made/SHA256SUMS")
}

# It is refused for another version, and for one that was not released.
refuse_versions() {
    ! ../release 9.9.9 "$room/refused" --trial && { released || ! ../release "$version" "$room/refused"; }
}
released() { grep -qE "^## $version \([0-9]" ../../CHANGELOG.md; }

# The build of what was unpacked has the sums of BUILDS.
build_here() {
    local dist=$room/unpacked/h3_qpack-$version/dist
    mkdir "$room/unpacked" && tar -C "$room/unpacked" -xzf "$made/h3_qpack-$version.tar.gz" && make -s -C "$dist" check &&
        (cd "$dist/build" && tail -n +2 "$made/BUILDS" | sha256sum --check --strict)
}

# The command qpk is there with its tool.
run_qpk() {
    echo 'b 4 0000d1' | "$room/unpacked/h3_qpack-$version/qpk" stats - | grep -x '  sections  *1; fields in them 1'
}

# The same build in a system of its own, by a user who is not root.
build_there() {
    local home=$system/home/unpacker
    rm -rf --one-file-system "$home" && mkdir -p "$home" && tar -C "$home" -xzf "$made/h3_qpack-$version.tar.gz" &&
        cp "$made/BUILDS" "$home" && chown -R 1000:1000 "$home" &&
        unshare --net --mount --pid --fork sh -c 'mount -t proc proc "$1/proc" && exec chroot --userspec=1000:1000 "$1" \
            env -i HOME=/home/unpacker PATH=/usr/bin:/bin sh -ec "cd /home/unpacker/h3_qpack-$2 && make -s -C dist check &&
            cd dist/build && tail -n +2 ../../../BUILDS | sha256sum --check --strict"' sh "$system" "$version"
}

# The list of contents has each file of the archive, with its sum, and nothing else.
compare_contents() {
    python3 - "$made/h3_qpack-$version.spdx.json" "$room/unpacked" <<'PYTHON'
import hashlib, json, sys
from pathlib import Path
contents, folder = json.loads(Path(sys.argv[1]).read_text()), Path(sys.argv[2])
listed = {it["fileName"]: it["checksums"][1]["checksumValue"] for it in contents["files"]}
built = lambda path: "build" in path.relative_to(folder).parts
there = {f"./{it.relative_to(folder)}": hashlib.sha256(it.read_bytes()).hexdigest()
         for it in folder.rglob("*") if it.is_file() and not built(it)}
assert contents["spdxVersion"] == "SPDX-2.3" and contents["packages"][0]["licenseDeclared"] == "MIT"
assert "h3 authors" in contents["packages"][0]["copyrightText"], contents["packages"][0]["copyrightText"]
assert len(contents["relationships"]) == len(listed) + 1
assert listed == there, sorted(set(listed.items()) ^ set(there.items()))[:4]
print(len(listed), "files")
PYTHON
}

for tool in gpg make cc python3; do
    command -v "$tool" >/dev/null && continue
    not_shown "a release" "without $tool"
    tell_count
    exit
done
export GNUPGHOME=$room/keys
try "make a key" make_key && try "make a release" make_release || { tell_count; exit; }
try "make it again" make_again
try "verify the signature and the sums" verify
try "find what was changed" find_changes
try "refuse other versions" refuse_versions
try "unpack, build and compare" build_here
try "run qpk" run_qpk
try "the list of contents" compare_contents
[ -z "$system" ] || try "unpack, build and compare in $system" build_there
tell_count
