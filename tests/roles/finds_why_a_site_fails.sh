# Finds why a site fails: reads a verdict on a capture, and on recordings of known faults.
./qpk check tests/captured/firefox.pcapng | grep -q 'nothing found'
fails ./qpk check tests/peers/ls_qpack-base.txt >said
grep -q 'RFC 9204, section 4.5.1.2' said && grep -q 0x0200 said
fails ./qpk check tests/peers/ls_qpack-capacity.txt >said
grep -q 'likely cause' said
./qpk strip tests/captured/chromium.txt >stripped && ./qpk check stripped
