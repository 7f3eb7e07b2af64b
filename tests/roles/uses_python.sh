# Uses it from Python: installs the package in a folder, and takes the wheel to another without a compiler.
python3 -m venv one && one/bin/pip -q install --no-index ./bindings/python
one/bin/python examples/programs/python/blocked.py | diff examples/programs/expected/blocked.txt -
one/bin/pip -q wheel --no-index -w wheels ./bindings/python
python3 -m venv two && CC=false two/bin/pip -q install --no-index wheels/h3_qpack-*.whl
two/bin/python examples/programs/python/invalid.py | diff examples/programs/expected/invalid.txt -
one/bin/python -c 'import h3_qpack; help(h3_qpack.Decoder.decode)' | grep -q StreamBlocked
