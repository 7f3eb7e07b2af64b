# Uses it from C: builds the library, and a program by README's line, without an install and with one.
make -s -C dist
cc -Wall -Wextra -Werror -Idist examples/programs/c/connection.c dist/build/libh3_qpack.a -o connection
./connection | diff examples/programs/expected/connection.txt -
make -s -C dist install PREFIX="$HOME/usr"
export PKG_CONFIG_PATH=$HOME/usr/lib/pkgconfig LD_LIBRARY_PATH=$HOME/usr/lib
# shellcheck disable=SC2046 # words
cc examples/programs/c/blocked.c $(pkg-config --cflags --libs h3_qpack) -o blocked
./blocked | diff examples/programs/expected/blocked.txt -
c++ -x c++ -fsyntax-only -Wall -Wextra -Idist - <<'CPP'
#include <h3_qpack.h>
int main() { return h3_qpack_version() != H3_QPACK_VERSION; }
CPP
