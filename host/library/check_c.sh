#!/bin/sh
# check_c.sh: holds the names that the archive needs from outside, compiles the C header and the C example with every warning an error, and runs the example on the worked example of the questions.
set -eu
here=$(cd "$(dirname "$0")" && pwd)
library=${TSCONFIG_QUESTIONS_LIB:-$here/../../target/staticlib/libquestions.a}
if [ -d "$library" ]; then library=$library/libquestions.a; fi
if [ ! -f "$library" ]; then
    echo "The proved library is not at $library. Run host/staticlib.sh in the repository." >&2
    exit 1
fi
scratch=$(mktemp -d)
trap 'rm -rf "$scratch"' EXIT
# README.md says which names the library needs from outside.
needs=$(nm -u "$library" | sed -n 's/^ *U //p' | sort -u | tr '\n' ' ')
if [ "$needs" != "memcpy memset " ]; then
    echo "The library needs $needs from outside, and not memcpy and memset alone." >&2
    exit 1
fi

flags="-std=c11 -Wall -Wextra -Wpedantic -Werror"

cc $flags -I "$here/include" -c -o "$scratch/header.o" "$here/tests/header.c"
if command -v c++ > /dev/null; then c++ -Wall -Wextra -Wpedantic -Werror -fsyntax-only -x c++ "$here/include/tsconfig_questions.h"; fi
cc $flags -O2 -I "$here/include" -o "$scratch/ask" "$here/examples/ask.c" "$library"

book=$here/../../crates/ask/data
"$scratch/ask" "$book/book.cmd" "$book/book.txt" /t/st/tsconfig.json /t/st/src/a.ts /t/st/src @f/band > "$scratch/answers"
if ! diff "$here/examples/ask.expected" "$scratch/answers"; then
    echo "The C example does not answer as expected (lines with < are expected, those with > were written)." >&2
    exit 1
fi
echo "the C example answers as expected"
