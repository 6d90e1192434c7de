# Builds the check programs into $out, always anew, with rustc alone. For sourcing, in the
# repository's root.

rust() { # NAME SOURCE WORDS..
    local name=$1 source=$2
    shift 2
    rustc -O -C overflow-checks=on --edition 2024 --crate-name "$name" -L "$out" --out-dir "$out" "$@" "$source"
}

build_reference() {
    rust reference tests/reference/src/lib.rs --crate-type rlib
}

# A check that reads the sources alone.
build_alone() { # NAME
    rust "$1" "tests/checks/$1.rs"
}

# A check that does not go through the C interface. WORDS, if any, say how to find what it calls.
build_check() { # NAME WORDS..
    local name=$1
    shift
    rust "$name" "tests/checks/$name.rs" --extern reference "$@"
}

# A check of the C interface: WORDS say how to find the library under test.
build_linked() { # NAME WORDS..
    build_check "$@" --extern interface
}

build_interface() {
    rust interface tests/checks/interface.rs --crate-type rlib --extern reference
}
