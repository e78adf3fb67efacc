# Shell functions for the scripts at the root of this repository that run one of its programs. `root` is the folder of the repository.

# need_program NAME: builds crates/NAME/out/NAME where it is missing or older than a source of crates/, and says so on standard error, with a
# line for each crate proved. Building ends in a run of the program, on no input.
need_program() {
    program=$root/crates/$1/out/$1
    if [ -x "$program" ] && [ -z "$(find "$root/crates" "$root/crates.txt" -name out -prune -o -type f -newer "$program" -print | head -n 1)" ]; then
        return 0
    fi
    echo "building $1: its crates are proved first, which takes some minutes the first time" >&2
    built=$(mktemp)
    (cd "$root/crates/$1" && rt run < /dev/null 2>&1 && echo built) | tee "$built" | awk '/^crate / { name = $2 } /^logic=proved/ { sub(":", "", name); print name " proved" }' >&2
    if [ "$(tail -n 1 "$built")" != built ] || [ ! -x "$program" ]; then
        cat "$built" >&2
        rm -f "$built"
        exit 2
    fi
    rm -f "$built"
    # where no crate of the program changed it was not linked again
    touch "$program"
}

# run_program NAME: runs it on standard input. Status 1 where the first line that it prints is `refused`.
run_program() {
    printed=$(mktemp)
    "$root/crates/$1/out/$1" > "$printed" || { rm -f "$printed"; exit 2; }
    cat "$printed"
    first=$(head -n 1 "$printed")
    rm -f "$printed"
    [ "$first" != refused ]
}
