#!/bin/sh
# Builds libmivtolgya.a from the sources of a tree WITHOUT PROOFS, in seconds, to see what a change of the code costs or gains.
#   tools/trial/build.sh TREE OUT
# TREE is a copy of the repository whose sources may be unproved; OUT gets libmivtolgya.a and the compiler's module.
# It proves nothing: what is kept of a trial is proved afterwards. Run it from the root of a repository whose crates are proved: the
# functions that C calls are taken from its own library (made once, kept in OUT's folder beside it as trial-exports.ll).
set -eu
tree=$(cd "$1" && pwd)
mkdir -p "$2"
out=$(cd "$2" && pwd)
home=${RATTLE_HOME:-$(dirname "$(dirname "$(rt doc)")")}
own=$home/on/$(uname -m)
kit=$out/kit

# A kit whose compiler is the real one, but keeps the module that it is given.
mirror() {
    rm -rf "$kit"
    mkdir -p "$kit/on/$(uname -m)/toolchain/bin"
    for part in "$home"/*; do [ "$part" = "$home/on" ] || ln -s "$part" "$kit/"; done
    for part in "$own"/*; do [ "$part" = "$own/toolchain" ] || ln -s "$part" "$kit/on/$(uname -m)/"; done
    for part in "$own"/toolchain/*; do [ "$part" = "$own/toolchain/bin" ] || ln -s "$part" "$kit/on/$(uname -m)/toolchain/"; done
    for part in "$own"/toolchain/bin/*; do ln -s "$part" "$kit/on/$(uname -m)/toolchain/bin/"; done
    rm "$kit/on/$(uname -m)/toolchain/bin/clang"
    cat >"$kit/on/$(uname -m)/toolchain/bin/clang" <<EOF
#!/bin/sh
case " \$* " in *" -O3 "*) for a; do case \$a in *.bc) cp "\$a" "$out/module.bc" ;; esac; done ;; esac
exec "$own/toolchain/bin/clang" "\$@"
EOF
    chmod +x "$kit/on/$(uname -m)/toolchain/bin/clang"
}

text_of() { "$own/toolchain/bin/clang" -x ir "$out/module.bc" -S -emit-llvm -Xclang -disable-llvm-passes -o "$1" 2>/dev/null; }

# The functions that C calls, from the proved library's module: all that are not internal.
exports() {
    RATTLE_HOME=$kit rt staticlib mivtolgya >/dev/null
    text_of "$out/proved.ll"
    awk '/^define/ { on = !/internal/ } on { print } /^}/ { on = 0 }' "$out/proved.ll" >"$out/../trial-exports.ll"
}

# Every crate below mivtolgya, by crates.txt.
below() {
    awk '{ sub(/#.*/, "") } /:/ { i = index($0, ":"); on[substr($0, 1, i - 1)] = substr($0, i + 1) }
        END { todo["mivtolgya"]; more = 1
            while (more) { more = 0; for (n in todo) { m = split(on[n], d, " "); for (k = 1; k <= m; k++) if (!(d[k] in todo)) { todo[d[k]]; more = 1 } } }
            for (n in todo) if (n != "mivtolgya") print n }' "$tree/crates.txt"
}

# The interpreter's tool compiles a program without a proof: the library with an empty main.
compile() {
    rm -rf "$out/program" "$out/module.bc"
    mkdir -p "$out/program/main"
    cp -r "$tree/crates" "$out/program/crates"
    # with all crates as sources, the module model::small_signal and the crate of that name clash
    mv "$out/program/crates/model/src/small_signal.rt" "$out/program/crates/model/src/small_signal_types.rt"
    sed -i 's/^pub mod small_signal;/pub mod small_signal_types;/' "$out/program/crates/model/src/lib.rt"
    sed -i 's/^use model::small_signal::/use model::small_signal_types::/' "$out"/program/crates/*/src/*.rt
    cp "$out/program/crates/mivtolgya/src/lib.rt" "$out/program/main/main.rt"
    echo 'fn main() {}' >>"$out/program/main/main.rt"
    set -- --lib "std=$home/libs/std/src/lib.rt"
    for name in $(below); do set -- "$@" --lib "$name=$out/program/crates/$name/src/lib.rt"; done
    "$own/bin/rattle-cases" --toolchain "$kit/on/$(uname -m)/toolchain" "$out/program/main/main.rt" --crate-name mivtolgya "$@" >"$out/cases.log" 2>&1 || { tail -n 20 "$out/cases.log"; exit 1; }
    text_of "$out/trial.ll"
    awk '/^define i32 @main\(/ { off = 1 } !off { print } /^}/ { off = 0 }' "$out/trial.ll" >"$out/library.ll"
    cat "$out/../trial-exports.ll" >>"$out/library.ll"
    "$own/toolchain/bin/clang" --target=x86_64-unknown-linux-gnu -march=x86-64 -ffunction-sections -fdata-sections -mllvm -trap-unreachable \
        -mllvm -no-trap-after-noreturn --no-default-config -c -x ir "$out/library.ll" -o "$out/library.o" -fPIC -O3
    rm -f "$out/libmivtolgya.a"
    ar rcs "$out/libmivtolgya.a" "$out/library.o"
}

mirror
[ -s "$out/../trial-exports.ll" ] || exports
compile
echo "$out/libmivtolgya.a, without proofs"
