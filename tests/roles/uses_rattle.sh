# Uses it from Rattle: copies ten crates beside one of its own, by USING, and runs a program over them. Needs the kit.
mkdir -p ../own/crates/my_app/src && cd ../own && git init -q .
cp "$CLONE/HANDLES" .
for name in qpack_spec qpack_rules qpack_base qpack_wire qpack_table qpack_codec qpack_shared qpack_encoding qpack_decoding \
    qpack_ends; do
    cp -r "$CLONE/crates/$name" crates/
    grep "^$name:" "$CLONE/crates.txt" >>crates.txt
done
echo 'my_app: qpack_ends anyhow' >>crates.txt
cp "$CLONE/crates/qpack_example/src/main.rt" crates/my_app/src/
cd crates/my_app
rt try >said
grep -Fxf "$CLONE/crates/qpack_example/stdout" said | diff "$CLONE/crates/qpack_example/stdout" -
