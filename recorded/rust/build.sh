# Read by record, compare, saves and bench/run, which set $root, the repository.

# rust_files SRC: makes the temporary folder $out, which is removed at the end. $out/src then has the Rust's eight files from the
# folder SRC, with the sums that NOTICE has, and files.rs and stubs.rs.
rust_files() {
    out=$(mktemp -d)
    trap 'rm -rf "$out"' EXIT
    trap 'exit 1' INT TERM
    mkdir "$out/src"
    grep -E '^[0-9a-f]{64}  [a-z_]+\.rs$' "$root/NOTICE" > "$out/sums"
    while read -r _ file; do
        cp "$1/$file" "$out/src"
    done < "$out/sums"
    (cd "$out/src" && sha256sum -c --quiet ../sums >&2) || { echo "$1: not the files whose sums NOTICE has" >&2; exit 1; }
    chmod u+w "$out/src"/*.rs
    cp "$root"/recorded/rust/*.rs "$out/src"
}

# rust_program NAME FLAGS: $out/NAME, from $out/src/main.rs.
rust_program() {
    name=$1
    shift
    rustc --edition 2024 --cfg 'feature="std"' --cfg 'feature="checksum"' "$out/src/main.rs" -o "$out/$name" "$@"
}

# rust_driver SRC: $out/driver, which answers calls by the Rust. Three of the eight files get a line after their last byte: a module
# that opens private functions.
rust_driver() {
    rust_files "$1"
    cp -R "$root/recorded/driver/." "$out/src"
    for file in checksum free_space free_space_manager; do
        echo 'pub(crate) mod open;' >> "$out/src/$file.rs"
    done
    rust_program driver -C opt-level=0 -C debug-assertions=on -C overflow-checks=on
}
