#!/usr/bin/env bash
# Builds the program without its proofs. It takes what `rt try` hands to clang, leaves out the checks of that, and optimises it as a
# proved build is. It says nothing of whether the program is right. Takes the program to write, and the crate that it is of, `pb_cli`
# where none is named. For measuring: callgrind counts a tenth more instructions than on the proved program; hints on inlining are
# lost, so INLINE and NOINLINE may be given, regular expressions of functions' names, such as 'pb_text::number::push_decimal'.
program=$(readlink -m "${1:?the program to write}")
crate=${2:-pb_cli}
top=$(readlink -f "$(dirname "$(readlink -f "$0")")/..")
command -v rt >/dev/null || { echo "there is no toolchain: put its command rt on the path" >&2; exit 1; }
kit=$(dirname "$(rt doc)")
room=$(mktemp -d) || exit 1
trap 'rm -rf "$room"' EXIT

# A kit whose clang keeps the program's module, and stops there. Its `rattle`, which `rt try` asks for hints alone, says nothing.
mkdir -p "$room/kit/bin" "$room/kit/toolchain/bin"
for file in "$kit"/*; do
    case ${file##*/} in
    bin | toolchain) ;;
    *) ln -s "$file" "$room/kit/" ;;
    esac
done
ln -s "$kit"/toolchain/lib "$room/kit/toolchain/"
ln -s "$kit"/toolchain/bin/* "$room/kit/toolchain/bin/"
ln -s "$kit"/bin/rattle-* "$room/kit/bin/"
cp "$kit"/bin/rt* "$room/kit/bin/"
# a toolchain may compute the stamp of a crate once for each way that leads down to it, which takes minutes
printf '\n\nCrate.stamp = functools.lru_cache(maxsize=None)(Crate.stamp)\n' >> "$room/kit/bin/rtlib.py"
rm "$room/kit/toolchain/bin/clang"
cat > "$room/kit/toolchain/bin/clang" <<END
#!/usr/bin/env bash
[[ "\$*" == *-fsanitize=address* ]] || exec "$kit/toolchain/bin/clang" "\$@"
while [ "\$1" != -x ]; do shift; done
cp "\$3" "$room/module.bc"
exit 1
END
printf '#!/bin/sh\nexit 1\n' > "$room/kit/bin/rattle"
chmod +x "$room/kit/toolchain/bin/clang" "$room/kit/bin/rattle"
(cd "$top/crates/$crate" && "$room/kit/bin/rt" try --steps 1 -- check none) > "$room/said" 2>&1 < /dev/null
if [ ! -f "$room/module.bc" ]; then
    grep -v '^run=none' "$room/said" | head -n 20 >&2
    exit 1
fi

clang=$kit/toolchain/bin/clang
target=(--target=x86_64-unknown-linux-gnu --sysroot="$kit/toolchain")
set -o pipefail
# Without the stops at failed checks, and without the filling of fresh memory.
"$clang" "${target[@]}" -S -emit-llvm -O0 -Xclang -disable-llvm-passes -x ir "$room/module.bc" -o - |
    grep -v -e 'call void @llvm.trap()' -e 'call void @llvm.memset.p0.i64(ptr %r[0-9]*, i8 -86' |
    sed -E -e 's/sanitize_address "frame-pointer"="all"/nounwind/; s/"target-cpu"="x86-64"/"target-cpu"="x86-64-v2"/' \
        -e "/^define .*\"(${NOINLINE:-none})\"/ s/ #0 \{/ noinline #0 {/" \
        -e "/^define .*\"(${INLINE:-none})\"/ s/ #0 \{/ alwaysinline #0 {/" > "$room/module.ll" || exit 1
"$clang" "${target[@]}" -march=x86-64-v2 -ffunction-sections -fdata-sections -fPIE -O3 -Wno-override-module \
    -Xclang -fmerge-functions -mllvm -mergefunc-use-aliases -mllvm -no-trap-after-noreturn -mllvm -trap-unreachable \
    -mllvm -no-x86-call-frame-opt -mllvm -disable-machine-licm -mllvm -disable-postra-machine-licm \
    -mllvm -sink-common-insts=false --no-default-config -c -x ir "$room/module.ll" -o "$room/module.o" || exit 1
"$kit/bin/rattle-link" --target x86_64-unknown-linux-gnu --toolchain "$kit/toolchain" -o "$room/program" "$room/module.o" \
    "$kit/c/libos_c.a" "$kit/c/liblibc_c.a" > "$room/linked" 2>&1 || { cat "$room/linked" >&2; exit 1; }
mv -f "$room/program" "$program"
