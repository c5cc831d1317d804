#!/bin/bash
# Every label of a day at each rate, and digits around each power of ten, written and held to C's printf (compare/written.c): compare/written.sh
# Its last line is 'N written, 0 wrong'. Needs Rattle's kit and a C compiler, which apt-get installs if it is missing.
set -eu
cd "$(dirname "${BASH_SOURCE[0]}")/.."
. bin/c-build
. bench/objects.sh
library
digits_object now
compile target/written compare/written.c target/now-digits.o
run target/written
