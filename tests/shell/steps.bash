# What test scripts have in common; they source it first. It goes to the root and makes a folder for
# their files. A step that doesn't build, prints no count or ends badly is one failure; the steps
# after it still run. Lines of what passed aren't shown.
set -u
cd "$(dirname "${BASH_SOURCE[0]}")/../.." || exit 2
work=$(mktemp -d) || exit 2
trap 'rm -rf "$work"' EXIT
script=${0##*/}
archive=$PWD/target/staticlib/libjoistdenim.a
export JOISTDENIM_LIB_DIR=${archive%/*}
passed=0
failed=0
strict='-Wall -Wextra -Werror'
sanitized='-fsanitize=address,undefined -fno-sanitize-recover=all'

fail() { # TEXT
    echo "$script: $1"
    failed=$((failed + 1))
}

# A step without a count. What it printed is shown where it fails.
build() { # LABEL COMMAND..
    local label=$1 status
    shift
    "$@" >"$work/out" 2>&1 </dev/null
    status=$?
    [ "$status" -eq 0 ] && return 0
    tail -n 20 "$work/out"
    fail "$label: status $status"
    return 1
}

# A step that is one check: it passes where the command does.
check() { # LABEL COMMAND..
    build "$@" || return
    echo "$script: $1: 1 passed, 0 failed"
    passed=$((passed + 1))
}

# A step whose last line is its count.
counted() { # LABEL COMMAND..
    local label=$1 status line good bad
    shift
    "$@" >"$work/out" 2>&1 </dev/null
    status=$?
    line=$(tail -n 1 "$work/out" | grep -E '^[0-9]+ passed, [0-9]+ failed$')
    if [ -z "$line" ]; then
        tail -n 20 "$work/out"
        fail "$label: no count, status $status"
        return
    fi
    sed '$d' "$work/out" | grep -v '^ok '
    good=${line%% *}
    bad=${line#*, }
    bad=${bad%% *}
    echo "$script: $label: $line"
    passed=$((passed + good))
    failed=$((failed + bad))
    if [ $((good + bad)) -eq 0 ]; then
        fail "$label: ran nothing, status $status"
    elif [ "$status" -ne 0 ] && [ "$bad" -eq 0 ]; then
        fail "$label: status $status"
    fi
}

in_rust() { # CARGO'S WORDS..
    local verb=$1
    shift
    cargo "$verb" --manifest-path rust/Cargo.toml --target-dir rust/target \
        --offline --locked --release --quiet "$@"
}

# cargo has a line for each test program; this adds them up.
unit_tests() { # PACKAGE
    local status
    in_rust test -p "$1" >"$work/units" 2>&1
    status=$?
    [ "$status" -eq 0 ] || cat "$work/units"
    awk '/^test result:/ { p += $4; f += $6 } END { printf "%d passed, %d failed\n", p, f }' "$work/units"
    return "$status"
}

# The last line of the script.
ended() {
    echo "$passed passed, $failed failed"
    [ "$failed" -eq 0 ]
}
