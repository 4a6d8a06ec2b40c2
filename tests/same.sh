# What ./test compares with, to be sourced. Each function holds standard input to what is expected, and says which
# line, record or row is the first that differs.

# By lines.
same() { # FILE
    held_to "$1" "$1" cat
}

# By records of so many bytes, shown in hex.
same_records() { # BYTES FILE
    held_to "$2" "$2" od -An -v -tx1 -w"$1"
}

# By the records of crates/cba_vectors/stdin, which begin with their lengths.
same_data_records() { # FILE
    held_to "$1" "$1" data_records
}

# By the records of crates/receiver_script/stdin, of which openings have a ciphertext after their 64 bytes.
same_openings() { # FILE
    held_to "$1" "$1" opening_records
}

# By the rows of the table `rows` in a file of proofs; standard input has them as `reference toy` prints them.
same_rows() { # FILE
    local rows status=0
    rows=$(mktemp)
    sed -n '/^rows =$/,/^$/s/^ *\(∷ \)\{0,1\}\(vector .*\)/\2/p' "$1" >"$rows"
    awk '{
        printf "vector %s %s", $1, $2
        for (i = 3; i <= NF; i++)
            if ($i == "-") printf " ([])"; else printf " (digits %d 0x%s)", length($i) / 2, $i
        print ""
    }' | held_to "$1" "$rows" cat || status=$?
    rm -f "$rows"
    return $status
}

# Standard input against a file, each made into lines by a command.
held_to() { # NAME FILE COMMAND..
    local name=$1 file=$2 room status=0
    shift 2
    room=$(mktemp -d)
    cat >"$room/found"
    if ! cmp -s "$file" "$room/found"; then
        status=1
        "$@" <"$file" >"$room/expected"
        "$@" <"$room/found" | first_difference "$room/expected" "$name" >&2
    fi
    rm -rf "$room"
    return $status
}

# The first line of standard input that differs from a file's.
first_difference() { # FILE NAME
    awk -v file="$1" -v name="$2" '
        function tell(line, want, found) {
            printf "%s, number %d:\n  expected %s\n  found    %s\n", name, line, substr(want, 1, 400), substr(found, 1, 400)
            told = 1
        }
        (getline want <file) <= 0 { want = "(nothing)" }
        want != $0 { tell(NR, want, $0); exit }
        END {
            if (!told && (getline want <file) > 0) tell(NR + 1, want, "(nothing)")
            if (!told) print name ": the same lines, but for the end of the last"
        }' -
}

# A line for each record: a set number, a key length, a data length of two bytes, the key and the data.
data_records() {
    od -An -v -tu1 -w1 | awk '
        { line = line sprintf("%02x", $1); n++ }
        n == 2 { key = $1 }
        n == 3 { high = $1 }
        n == 4 { all = 4 + key + 256 * high + $1 }
        n >= 4 && n == all { print line; line = ""; n = 0 }
        END { if (line != "") print line " (cut short)" }'
}

# A line for each record: 64 bytes and, where the first says that it is one with a ciphertext, as many more as bytes 5
# to 7 say.
opening_records() {
    od -An -v -tu1 -w1 | awk '
        { line = line sprintf("%02x", $1); n++ }
        n == 1 { more = $1 == 2 || $1 == 4; text = 0; all = 64 }
        n >= 6 && n <= 8 { text = 256 * text + $1 }
        n == 8 && more { all += text }
        n == all { print line; line = ""; n = 0 }
        END { if (line != "") print line " (cut short)" }'
}
