# Doubts the sums: compares sources and files with dist/SUMS, has a change found, and builds twice.
./dist/fits
cp -r . ../changed && cd ../changed
printf '\n' >>dist/x86_64-elf.s
fails ./dist/fits h3_qpack_c 2>said
grep -q x86_64-elf.s said
cd "$CLONE"
make -s -C dist && cp -r dist ../other && make -s -C ../other clean all
cmp dist/build/libh3_qpack.a ../other/build/libh3_qpack.a && cmp dist/build/qpk ../other/build/qpk
grep -q 'function' dist/SUMS && grep -q 'not in this repository' docs/FAQ.md
