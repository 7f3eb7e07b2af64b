# Tries it: the commands of README, in a clone, and the first question of FAQ.
[ "$(printf ':method\tGET\n' | ./qpk encode)" = 0000d1 ]
./qpk show tests/captured/chromium.txt | grep -q ':path'
./qpk explain 0000d1 | grep -q ':method'
./qpk report tests/captured/chromium.pcapng -o page.html && grep -q '<title>' page.html
