# Read in by the scripts here: stops at the first fault, goes to the repository's root, makes a directory $work that is removed at the end.
set -e
cd "$(dirname "$0")/.."
work=$(mktemp -d)
trap 'rm -rf "$work"' EXIT

# build CRATE PLAIN: proves CRATE and makes crates/CRATE/out/CRATE, which runs once, on nothing and with the crate's own arguments;
# and $work/PLAIN of bench/PLAIN.rs
build() {
    given=$(cat "crates/$1/args" 2> /dev/null || true)
    (cd "crates/$1" && rt run -- $given < /dev/null > "$work/run.log" 2>&1) || { tail "$work/run.log"; exit 1; }
    rustc -O --edition 2024 -o "$work/$2" "bench/$2.rs"
}
