# Makes a first change: adds the call that CONTRIBUTING shows, and has the tests name an answer that differs. With PROVE=1 it
# also proves the call, finds a planted bug, and proves the crates above, over proofs that take half an hour. Needs the kit.
python3 - <<'PY'
import re
from pathlib import Path

def insert(name, before, text):
    path = Path(name)
    found = path.read_text(encoding="utf-8")
    assert found.count(before) == 1, (name, before)
    path.write_text(found.replace(before, text + before), encoding="utf-8")

shown = re.search(r"^   ```rust\n(.*?)^   ```$", Path("CONTRIBUTING.md").read_text(encoding="utf-8"), re.M | re.S)[1]
use, call = re.sub(r"^   ", "", shown, flags=re.M).split("\n\n", 1)
decoder = "crates/qpack_decoding/src/decoder.rt"
insert(decoder, "ghost use Rattle.qpack_shared.specs.Unsent.", f"{use}\n")
insert(decoder, "    /// Returns how many streams are blocked: those that still wait", f"{call}\n")
insert("crates/qpack_decoding/src/blocked.rt", "fn is_blocked(", "pub(crate) ")
insert("crates/qpack_connection_tests/src/decoder.rt", '            "sends" => self.send(call),\n', """\
            "waits" => {
                let stream = call.number();
                call.show(&self.end.is_blocked(stream));
            }
""")
case = "# a stream waits\n= decoder 4096 2 1000000\ndecodes 0 $REQUIRES_1 -> waits for 1, 1 blocked\nwaits 0 -> false\n"
with open("crates/qpack_tests/data/decoder.txt", "a", encoding="utf-8") as cases:
    cases.write(f"\n{case}")
counts = Path("crates/qpack_tests/stdout")
of_file = re.compile(r"^decoder\.txt: (\d+) cases, (\d+) calls$", re.M)
counted = counts.read_text(encoding="utf-8")
counted = of_file.sub(lambda it: f"decoder.txt: {int(it[1]) + 1} cases, {int(it[2]) + 2} calls", counted)
counts.write_text(counted, encoding="utf-8")
PY
for crate in qpack_decoding qpack_connection_tests; do (cd crates/$crate && rt fmt); done
fails ./test qpack_connection_tests >said
grep -q 'waits 0' said
sed -i 's/^waits 0 -> false$/waits 0 -> true/' crates/qpack_tests/data/decoder.txt
./test qpack_connection_tests
if [ "${PROVE:-}" = 1 ]; then
    for crate in qpack_spec qpack_rules qpack_base qpack_wire qpack_table qpack_codec qpack_shared; do (cd crates/$crate && rt check); done
    cd crates/qpack_decoding
    rt check --only decoder::ConnectionDecoder::is_blocked >said
    grep -q 'proved=4' said
    rt plant --only is_blocked
    cp src/blocked.rt kept && sed -i 's/=> required > inserted,/=> required <= inserted,/' src/blocked.rt
    fails rt check --only decoder::ConnectionDecoder::is_blocked
    mv kept src/blocked.rt && cd "$CLONE" && tests/above qpack_decoding
else
    echo 'not shown: the proofs of a first change, without PROVE=1'
fi
