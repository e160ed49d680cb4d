# program.sh: sourced (POSIX sh) by bench/run and tests/lowered.sh. A driver and ezpz's textual part as one program: ezpz's files as
# they stand, the driver as a part of its module textual, and what stands in for its solver.

# The program is FOLDER/driver. RUSTC is a command or a function; STAND-INS is the folder of this file.
program() { # RUSTC STAND-INS EZPZ WINNOW DRIVER FOLDER RUSTC-WORDS..
    rustc=$1 folder=$6
    mkdir -p "$folder"
    cp -R "$3/textual" "$3/textual.rs" "$3/datatypes" "$3/datatypes.rs" "$folder/"
    chmod -R u+w "$folder"
    cp "$2/main.rs" "$2/indexmap.rs" "$2/vector.rs" "$folder/"
    cp "$5" "$folder/driver.rs"
    echo '#[path = "driver.rs"] pub mod driver;' >>"$folder/textual.rs"
    "$rustc" --edition 2021 --crate-type rlib --crate-name winnow --cfg 'feature="std"' --cfg 'feature="alloc"' "$4/src/lib.rs" --out-dir "$folder"
    "$rustc" --edition 2021 --crate-type rlib --crate-name indexmap "$folder/indexmap.rs" --out-dir "$folder"
    shift 6
    "$rustc" --edition 2024 --extern winnow="$folder/libwinnow.rlib" --extern indexmap="$folder/libindexmap.rlib" "$@" "$folder/main.rs" -o "$folder/driver"
}
