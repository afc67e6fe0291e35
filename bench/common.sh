# What the scripts of this folder share; each reads this file first. Then `here` is the repository, and `work` a folder of the script's
# own, which is removed at its end.
# BUILT may name a folder with programs of the repository that were built before (`ggvax`, `ggdesk`): those are taken as they are.
here=$(CDPATH='' cd -- "$(dirname -- "$0")/.." && pwd)
work=$(mktemp -d)
trap 'rm -rf "$work"' EXIT
# What the scripts write in Python reads common.py.
PYTHONPATH=$here/bench PYTHONDONTWRITEBYTECODE=1
export PYTHONPATH PYTHONDONTWRITEBYTECODE

# Ends the script, which has nothing to do for the reason $1.
skip() {
    echo "skipped: $1"
    exit 0
}

# The path of a program of the repository. Without BUILT it is proved and built where it is stale, which from nothing takes hours; with
# BUILT there is no path where the folder lacks it.
program_of() {
    if [ -n "${BUILT:-}" ]; then
        built=$(CDPATH='' cd -- "$BUILT" && pwd)
        [ ! -x "$built/$1" ] || echo "$built/$1"
    elif [ "$1" = ggvax ]; then
        # The front script builds the program for the words of a command; this command refuses an empty text.
        "$here/ggvax" image /dev/null >/dev/null 2>&1 || true
        echo "$here/crates/ggvax/out/ggvax"
    else
        given=$here/crates/$1/stdin
        [ -f "$given" ] || given=/dev/null
        (cd "$here/crates/$1" && rt run) <"$given" >/dev/null 2>&1 || true
        echo "$here/crates/$1/out/$1"
    fi
}

# Copies the Cargo project in the folder $1, with the file $2 of bench/ as its main file where one is given; it fails where there is no
# such folder.
copy_plain() {
    [ -n "$1" ] && [ -f "$1/Cargo.toml" ] || return 1
    mkdir "$work/plain"
    cp -r "$1/Cargo.toml" "$1/src" "$work/plain"
    chmod -R u+w "$work/plain"
    [ -z "${2:-}" ] || cp "$here/bench/$2" "$work/plain/src/main.rs"
}

# Builds the copy and writes the path of its program.
build_plain() {
    RUSTFLAGS=-Awarnings cargo build --quiet --release --manifest-path "$work/plain/Cargo.toml" --target-dir "$work/target"
    find "$work/target/release" -maxdepth 1 -type f -perm -u+x | head -n 1
}

# Builds a plain program, of the same words as `copy_plain`, and writes its path; it writes nothing where there is no such folder.
plain_of() {
    if copy_plain "$@"; then
        build_plain
    fi
}

# Builds the file $1.c of bench/ as a library that can be preloaded into a program, and writes its path.
preloaded() {
    ${CC:-cc} -O2 -shared -fPIC -o "$work/$1.so" "$here/bench/$1.c"
    echo "$work/$1.so"
}
