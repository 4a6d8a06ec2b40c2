#!/usr/bin/env bash
# Holds the files that programs of ours must write to openssl: crates/aes_vectors/stdout, the results of FIPS 197's
# appendices A, B and C, and crates/cmac_vectors/stdout, those of RFC 4493's section 4, of NIST SP 800-38B's appendix D
# and, of 20 bytes, of NIST's later examples. A wrong digit in them would be a wrong test: no code of the library takes
# part here. openssl shows no round keys and no state within a block: of these only the number and the form are checked.
# The equivalent inverse cipher's state before its last step is checked too, and all its states are held to the second
# implementation by the step `rows` of ./test. openssl shows no subkeys of CMAC either: these are its L, doubled here.
set -euo pipefail
cd "$(dirname "$(readlink -f "$0")")/.."
file=crates/aes_vectors/stdout

# The standard's inputs: the keys of appendix A (B has the first of them), and those of C.
a_keys=(2b7e151628aed2a6abf7158809cf4f3c
    8e73b0f7da0e6452c810f32b809079e562f8ead2522c6b7b
    603deb1015ca71be2b73aef0857d77811f352c073b6108d72d9810a30914dff4)
b_plain=3243f6a8885a308d313198a2e0370734
c_key=000102030405060708090a0b0c0d0e0f101112131415161718191a1b1c1d1e1f
c_plain=00112233445566778899aabbccddeeff

same() { # WHAT EXPECTED FOUND
    [ "$2" = "$3" ] || { printf 'vectors.sh: %s: expected %s, found %s\n' "$1" "$2" "$3" >&2; exit 1; }
}

bytes() { printf '%b' "$(sed 's/../\\x&/g' <<<"$1")"; } # HEX

xor() { printf '%016x%016x' $((16#${1:0:16} ^ 16#${2:0:16})) $((16#${1:16} ^ 16#${2:16})); } # BLOCK BLOCK

# openssl's AES of one block, in hex.
ecb() { # KEY BLOCK [-d]
    bytes "$2" | openssl enc "-aes-$((${#1} * 4))-ecb" -nopad -nosalt -K "$1" "${@:3}" | od -An -v -tx1 | tr -d ' \n'
}

# The rows below a heading, up to the next heading.
rows() { # HEADING
    awk -v heading="$1" '/^[A-Z]/ { below = ($0 == heading); next } below' "$file"
}

# One row for each round, numbered from 0, all of one form.
rounds() { # HEADING COUNT FORM
    same "rounds of $1" "$(seq -s ' ' 0 $(($2 - 1)))" "$(rows "$1" | cut -d ' ' -f 1 | paste -sd ' ')"
    same "well-formed rows of $1" "$2" "$(rows "$1" | grep -Ecx "[0-9]+$3" || true)"
}

# Four rows for each round, numbered from 1, with the standard's labels.
steps() { # HEADING ROUNDS
    local labels
    labels=$(for n in $(seq "$2"); do echo "$n istart $n is_box $n is_row $n im_col"; done | sed '$s/im_col/ioutput/')
    same "steps of $1" "$(paste -sd ' ' <<<"$labels")" "$(rows "$1" | cut -d ' ' -f 1,2 | paste -sd ' ')"
    same "well-formed rows of $1" $((4 * $2)) "$(rows "$1" | grep -Ecx '[0-9]+ [a-z_]+ [0-9a-f]{32}' || true)"
}

# Four headings, their rounds, the three lines of C, three headings, their steps, and nothing else.
same "lines of $file" $((4 + 11 + 13 + 15 + 11 + 3 + 3 + 40 + 48 + 56)) "$(wc -l <"$file")"

for i in 0 1 2; do
    rounds "A.$((i + 1)) ${a_keys[i]}" $((11 + 2 * i)) '( [0-9a-f]{8}){4}'
done

rounds "B $b_plain" 11 ' [0-9a-f]{32}'
cipher=$(rows "B $b_plain" | sed -n 's/^10 //p')
same "B, encrypted" "$(ecb "${a_keys[0]}" $b_plain)" "$cipher"
same "B, decrypted" $b_plain "$(ecb "${a_keys[0]}" "$cipher" -d)"

same "lines of C" "C.1 C.2 C.3 C.1 C.2 C.3" "$(grep '^C' "$file" | cut -d ' ' -f 1 | paste -sd ' ')"
for i in 1 2 3; do
    key=${c_key:0:16+16*i}
    read -r cipher plain <<<"$(sed -n "/EqInvCipher/!s/^C\.$i //p" "$file")"
    same "C.$i, encrypted" "$(ecb "$key" $c_plain)" "$cipher"
    same "C.$i, decrypted" "$(ecb "$key" "$cipher" -d)" "$plain"
    same "C.$i, its plaintext" $c_plain "$plain"
    heading="C.$i EqInvCipher $cipher"
    steps "$heading" $((8 + 2 * i))
    # The last step adds round key 0, the start of the key, and gives the plaintext.
    same "$heading, its end" "$(xor "$plain" "${key:0:32}") $plain" "$(rows "$heading" | tail -n 2 | cut -d ' ' -f 3 | paste -sd ' ')"
done
echo "vectors.sh: the ciphertexts and plaintexts of $file are openssl's"

# CMAC. The keys of SP 800-38B are those of FIPS 197's appendix A.
file=crates/cmac_vectors/stdout
message=6bc1bee22e409f96e93d7e117393172aae2d8a571e03ac9c9eb76fac45af8e51
message+=30c81c46a35ce411e5fbc1191a0a52eff69f2445df4f9b17ad2b417be66c3710
zeros=00000000000000000000000000000000

# A block shifted by a bit, and 87 into its last byte where a bit is lost.
doubled() { # BLOCK
    local high=$((16#${1:0:16})) low=$((16#${1:16}))
    printf '%016x%016x' $((high << 1 | (low >> 63 & 1))) $((low << 1 ^ (high >> 63 & 1) * 0x87))
}

# openssl's CMAC, in hex.
cmac() { # KEY MESSAGE
    bytes "$2" | openssl mac -cipher "AES-$((${#1} * 4))-CBC" -macopt "hexkey:$1" CMAC | tr A-F a-f
}

# The whole file, line by line.
cmac_lines() {
    local key l n
    for key in "${a_keys[@]}"; do
        echo "AES-$((${#key} * 4)) $key"
        l=$(ecb "$key" $zeros)
        echo "L $l"
        echo "K1 $(doubled "$l")"
        echo "K2 $(doubled "$(doubled "$l")")"
        for n in 0 16 20 40 64; do echo "$n $(cmac "$key" "${message:0:2*n}")"; done
    done
}

diff "$file" <(cmac_lines) >&2 || { echo "vectors.sh: $file: openssl gives the lines after >" >&2; exit 1; }
echo "vectors.sh: L and the codes of $file are openssl's, and the subkeys are that L doubled"
