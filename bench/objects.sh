# For bash to source behind bin/c-build: objects to link beside the library, or beside another commit's.

# the names of an archive under others, alone in an object: under_name OUT.o ARCHIVE WAS=IS ..
under_name() {
    local out=$1 archive=$2 tools='' words=() pair
    shift 2
    get_compiler
    emulated && tools=x86_64-linux-gnu-
    "${tools}ld" -r -o "$out" --whole-archive "$archive"
    for pair; do
        words+=(--redefine-sym "$pair" --keep-global-symbol "${pair#*=}")
    done
    "${tools}objcopy" "${words[@]}" "$out"
}

# target/NAME-digits.o, in which NAME_put_digits is digits::put_digits, which the library does not hand to C: digits_object NAME [FOLDER],
# from the crates in FOLDER (this repository)
digits_object() {
    local name=$1 from=${2:-.} at=target/$1-digits
    mkdir -p "$at/crates/handed/src"
    rm -rf "$at"/crates/{outcomes,lent,digits}
    cp -r "$from"/crates/{outcomes,lent,digits} "$at/crates/"
    printf 'outcomes:\nlent: outcomes\ndigits: outcomes lent\nhanded staticlib: digits\n' > "$at/crates.txt"
    cat > "$at/crates/handed/src/lib.rt" << 'END'
// The digit writer for C.
#![tactic(auto)]

#[unsafe(no_mangle)]
pub extern "C" fn put_digits(part: &mut [u8], k: usize, n: u64) {
    digits::put_digits(part, k, n);
}
END
    (cd "$at/crates/handed" && rt lib) > "$at.log" 2>&1 || { tail -n 20 "$at.log" >&2; return 1; }
    under_name "$at.o" "$at/crates/handed/out/libhanded.a" "put_digits=${name}_put_digits"
}
