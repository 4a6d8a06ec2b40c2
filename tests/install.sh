#!/usr/bin/env bash
# Installs the library into a temporary folder, builds C and C++ over it by way of pkg-config alone, and holds ./install
# to its refusals.
set -euo pipefail
cd "$(dirname "$(readlink -f "$0")")/.."
root=$PWD
tmp=$(mktemp -d)
trap 'rm -rf "$tmp"' EXIT

same() { # WHAT EXPECTED FOUND
    [ "$2" = "$3" ] || { printf 'install.sh: %s: expected %s, found %s\n' "$1" "$2" "$3" >&2; exit 1; }
}

# A file of C or C++, built over an installation and run.
built() { # PREFIX COMPILER.. FILE
    local flags
    read -ra flags < <(PKG_CONFIG_PATH=$1/lib/pkgconfig pkg-config --cflags --libs cba)
    "${@:2}" -Wall -Wextra -Werror -o "$tmp/program" "${flags[@]}" && "$tmp/program"
}

# README.md's lines of C, as the body of a function.
readme_program() {
    echo '#include <cba.h>'
    echo 'static uint32_t call(const uint8_t *key, const uint8_t *nonce, const uint8_t *log_key) {'
    sed -n '/^```c$/,/^```$/ { /^```/!p }' README.md
    echo '}'
    echo 'int main(void) { return (int)call((const uint8_t[16]){1}, (const uint8_t[12]){2}, (const uint8_t[16]){3}); }'
}

check_built() { # PREFIX
    local example
    for example in seal_and_open mark_and_check; do
        built "$1" gcc -O2 "examples/$example.c" | cmp - "examples/$example.out"
    done
    readme_program >"$tmp/readme.c"
    built "$1" gcc -O2 "$tmp/readme.c" || same "the status of README.md's lines of C" 0 $?
    built "$1" g++ -std=c++11 tests/cplusplus.cc
}

# ./install refuses, with a line of its own, and changes nothing below a folder.
refuses() { # FOLDER ARGUMENT..
    local status=0 before
    before=$(find "$1")
    ./install "${@:2}" 2>"$tmp/said" || status=$?
    same "status of ./install ${*:2}" 2 "$status"
    grep -q '^install: ' "$tmp/said" || { cat "$tmp/said"; same "what ./install ${*:2} says" "a line" "none"; }
    same "what is below $1 after ./install ${*:2}" "$before" "$(find "$1")"
}

# VERSION has the version; what has to repeat it says the same.
version=$(cat VERSION)
[[ $version =~ ^[0-9]+\.[0-9]+\.[0-9]+$ ]] || same "VERSION" "three numbers" "$version"
same "CBA_VERSION in include/cba.h" "\"$version\"" "$(sed -n 's/^#define CBA_VERSION //p' include/cba.h)"
same "the version in bindings/rust/Cargo.toml" "$version" \
    "$(sed -n 's/^version = "\(.*\)"$/\1/p' bindings/rust/Cargo.toml)"
same "the version of cba in bindings/rust/Cargo.lock" "$version" \
    "$(sed -n '/^name = "cba"$/ { n; s/^version = "\(.*\)"$/\1/p }' bindings/rust/Cargo.lock)"
same "the newest version in CHANGELOG.md" "$version" \
    "$(sed -n 's/^## \([0-9][0-9.]*\).*$/\1/p' CHANGELOG.md | head -n 1)"

# By a relative name, from another folder; a second time over the first.
(cd "$tmp" && "$root/install" prefix && "$root/install" prefix)
same "the files" "include/cba.h lib/libcba.a lib/pkgconfig/cba.pc" \
    "$(find "$tmp/prefix" -type f -printf '%P\n' | sort | paste -sd ' ')"
same "the version in lib/pkgconfig/cba.pc" "$version" \
    "$(PKG_CONFIG_PATH=$tmp/prefix/lib/pkgconfig pkg-config --modversion cba)"
same "CBA_VERSION in the installed cba.h" "\"$version\"" \
    "$(gcc -E -P -include "$tmp/prefix/include/cba.h" - <<<CBA_VERSION | tail -n 1)"
check_built "$tmp/prefix"

# An installation can be moved.
mv "$tmp/prefix" "$tmp/moved"
check_built "$tmp/moved"

mkdir "$tmp/refused" "$tmp/refused/half"
touch "$tmp/refused/file" "$tmp/refused/half/include"
refuses "$tmp/refused"
refuses "$tmp/refused" ""
refuses "$tmp/refused" --help
refuses "$tmp/refused" "$tmp/refused/a" "$tmp/refused/b"
refuses "$tmp/refused" "$tmp/refused/file"
refuses "$tmp/refused" "$tmp/refused/half" # lib can be made there, and include cannot
refuses "$tmp/refused" /proc/cba # where root may not write either
echo "install.sh: version $version everywhere; C and C++ built over an installation, before and after it was moved; 7 refusals"
