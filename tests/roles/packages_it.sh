# Packages it: installs into a folder of a package, looks at what came, and removes it again.
make -s -C dist install DESTDIR="$HOME/package" PREFIX=/usr
for file in include/h3_qpack.h lib/libh3_qpack.a lib/libh3_qpack.so.0 lib/pkgconfig/h3_qpack.pc bin/qpk share/man/man1/qpk.1; do
    [ -f "$HOME/package/usr/$file" ]
done
grep -q 'h3 authors' "$HOME/package/usr/share/licenses/h3_qpack/LICENSE"
nm -D --defined-only "$HOME/package/usr/lib/libh3_qpack.so.0" | awk '{ print $3 }' | grep '@' | sed 's/@.*//' | sort >there
sed -n 's/^ \(h3[a-z0-9_]*\)@.*/\1/p' dist/debian/libh3-qpack0.symbols | sort | diff - there
make -s -C dist uninstall DESTDIR="$HOME/package" PREFIX=/usr
[ -z "$(find "$HOME/package" -type f)" ]
python3 tests/versions.py
