# For oracle/build and bench/build: the Rust of the syntax editor, as a library over one stand-in or another.
# $root is the repository, $src the folder of the Rust, $out the folder to build in.

compile() {
    rustc --edition 2024 -O -C debug-assertions=off -C overflow-checks=off -A warnings "$@"
}

# Our own sources and the four files of the Rust, unchanged, as links in one folder; and the stand-ins that are the same for all.
prepare() {
    mkdir -p "$out/src/syntax_editor" "$out/src/ast/syntax_factory"
    for file in lib.rs main.rs places.rs play.rs reader.rs sharing.rs ast.rs ast/syntax_factory/constructors.rs syntax_editor/edits.rs; do
        ln -s "$root/oracle/src/$file" "$out/src/$file"
    done
    for file in syntax_editor.rs syntax_editor/edit_algo.rs syntax_editor/mapping.rs ast/syntax_factory.rs; do
        test -f "$src/src/$file" || { echo "no $file in $src/src" >&2; exit 2; }
        ln -s "$src/src/$file" "$out/src/$file"
    done
    for name in rustc_hash stdx itertools; do
        compile --crate-type rlib --crate-name "$name" "$root/oracle/stand-in/$name.rs" --out-dir "$out"
    done
}

# over NAME STAND-IN [CFG]...: $out/NAME/libthe_rust.rlib. The metadata lets one program hold several of them.
over() {
    name=$1
    stand_in=$root/oracle/stand-in/$2/lib.rs
    shift 2
    mkdir -p "$out/$name"
    compile --crate-type rlib --crate-name rowan "$stand_in" -C metadata="$name" --out-dir "$out/$name" "$@"
    compile --crate-type rlib --crate-name the_rust "$out/src/lib.rs" -C metadata="$name" --out-dir "$out/$name" \
        -L "$out" -L "$out/$name" --extern rowan="$out/$name/librowan.rlib" \
        --extern rustc_hash="$out/librustc_hash.rlib" --extern stdx="$out/libstdx.rlib" --extern itertools="$out/libitertools.rlib"
}
