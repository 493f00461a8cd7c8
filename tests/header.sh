#!/bin/sh
# The C header: compiled as C and as C++ against the proved library, and texts lent whose end can't be read. It needs a C and a C++ compiler.
set -e
cd "$(dirname "$0")/.."
tests/archive phc
warnings="-Wall -Wextra -Wpedantic -Werror"
# shellcheck disable=SC2086
{
    cc -std=c11 $warnings -I include tests/header.c -o target/header target/staticlib/libphc.a
    c++ -std=c++11 $warnings -I include -x c++ tests/header.c -x none -o target/header_cpp target/staticlib/libphc.a
    cc -std=c11 $warnings -I include tests/unread.c -o target/unread target/staticlib/libphc.a
}
target/header
target/header_cpp
target/unread
