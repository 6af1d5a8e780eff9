# For the scripts that try, show or time the static library, which source this file at the root of the repository.
# BUNGERO_LIB=DIRECTORY takes libexports.a from there; otherwise it is built, unless there is one newer than the code.
library=${BUNGERO_LIB:-crates/exports/out}

# Proves and builds the static library; what is proved already is not proved again.
make_library() {
    local log=target/library.log
    mkdir -p target
    (cd crates/exports && rt lib) > "$log" 2>&1 || { cat "$log" >&2; return 1; }
}

# Builds the static library where it is not there yet, or older than what it is made of.
build_library() {
    local made=$library/libexports.a
    if [ -n "${BUNGERO_LIB:-}" ]; then return; fi
    if [ -e "$made" ] && [ -z "$(find crates crates.txt -name out -prune -o -newer "$made" -print -quit)" ]; then return; fi
    make_library
}

# Compiles a program in Rust with the static library: compile_rust SOURCE PROGRAM.
compile_rust() {
    rustc --edition 2021 -O -D warnings -L "$library" -l static=exports -o "$2" "$1"
}
