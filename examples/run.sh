#!/bin/sh
# Builds examples/transomrib.c with the C library, plainly and with the sanitizers, runs both and compares what they print.
# The address sanitizer does not run under the toolchain's emulator: on a machine that is not an x86-64 one there is the plain form alone.
# The library comes first: make lib
set -eu
cd "$(dirname "$0")/.."
library=target/staticlib/libtransomrib.a
built=target/examples
[ -f $library ] || { echo "$library is missing: make lib" >&2; exit 1; }
mkdir -p $built
flags="-std=c11 -Wall -Wextra -Werror -Iinclude"
tools/x86-64 cc $flags -O2 examples/transomrib.c $library -o $built/plain
forms=plain
if tools/x86-64 here; then
    tools/x86-64 cc $flags -O1 -g -fsanitize=address,undefined -fno-sanitize-recover=all examples/transomrib.c $library -o $built/sanitized
    forms='plain sanitized'
else
    echo 'examples/transomrib.c, sanitized: on x86-64 machines only'
fi
for form in $forms; do
    tools/x86-64 run $built/$form > $built/$form.out
    diff examples/transomrib.out $built/$form.out
    echo "examples/transomrib.c, $form: as expected"
done
