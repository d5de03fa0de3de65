# Where the Rattle kit and its compiler are; read by the scripts of this folder.
kit=$(dirname "$(dirname "$(readlink -f "$(command -v rt || echo /missing/bin/rt)")")")
clang=$kit/toolchain/bin/clang
archiver=$kit/toolchain/bin/llvm-ar

fail() { echo "port: $*" >&2; exit 1; }

# The module $1 as text in $2, without what names x86-64; what clang says goes to $2.said.
plain_module() {
    "$clang" -S -emit-llvm -Xclang -disable-llvm-passes -x ir "$1" -o "$2.read" 2>"$2.said" || fail "$1 is no module: $(head -n 1 "$2.said")"
    sed -E '/^target (datalayout|triple)/d; s/ "(probe-stack|target-cpu|target-features|tune-cpu)"="[^"]*"//g' "$2.read" >"$2"
}
