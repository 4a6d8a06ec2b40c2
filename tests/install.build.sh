#!/usr/bin/env bash
# When ./install builds the library: where it is missing or older than a source, and not else. A stand-in for rt, in a
# copy of what ./install reads, tells; nothing is proved here.
set -euo pipefail
cd "$(dirname "$(readlink -f "$0")")/.."
tmp=$(mktemp -d)
trap 'rm -rf "$tmp"' EXIT
mkdir -p "$tmp"/crates/{one,cba_c}/{src,specs,proofs} "$tmp/bin" "$tmp/tools"
cp -r install include VERSION "$tmp"
cp tools/build "$tmp/tools"
touch "$tmp/crates.txt" "$tmp/crates/one/src/lib.rt"

cat >"$tmp/bin/rt" <<'EOF'
#!/bin/sh
[ "$*" = "lib --cpu=x86-64" ] && [ "$(basename "$PWD")" = cba_c ] && [ ! -e ../../fails ] || exit 1
mkdir -p out
date +%N >out/libcba_c.a
EOF
chmod +x "$tmp/bin/rt"

# ./install ends so, and says that it builds, or does not.
installs() { # WHAT STATUS BUILDS
    local status=0 builds=no
    PATH=$tmp/bin:$PATH "$tmp/install" "$tmp/prefix" 2>"$tmp/said" >"$tmp/out" || status=$?
    if grep -q 'proving and building' "$tmp/said"; then builds=yes; fi
    if [ "$status $builds" != "$2 $3" ] || [ -s "$tmp/out" ]; then
        cat "$tmp/said" "$tmp/out" >&2
        echo "install.build.sh: $1: expected $2 $3, found $status $builds" >&2
        exit 1
    fi
}

touch "$tmp/fails"
installs "no library, and rt fails" 2 yes
[ ! -e "$tmp/prefix" ]
rm "$tmp/fails"
installs "no library" 0 yes
installs "nothing new" 0 no
cmp "$tmp/target/staticlib/libcba.a" "$tmp/prefix/lib/libcba.a"

# In the future, so that the clock's steps do not matter.
touch -d '+1 hour' "$tmp/crates/one/src/lib.rt"
cp "$tmp/prefix/lib/libcba.a" "$tmp/before"
touch "$tmp/fails"
installs "an edit, and rt fails" 2 yes
cmp "$tmp/before" "$tmp/prefix/lib/libcba.a"
rm "$tmp/fails"
installs "an edit" 0 yes
echo "install.build.sh: built where it is missing or old, and not else; what rt refuses is not installed"
