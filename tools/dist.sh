#!/usr/bin/env bash
# Makes what a user without the kit takes: an archive for Linux on x86-64, a Python wheel, and their
# checksums.
#
#   tools/dist.sh [FOLDER]     writes into FOLDER, or into out/ at the top
#
# It packs the proved builds. `rt run` in crates/gltf_lint and in crates/gltf_report makes the programs,
# as `rt ci` does; `rt lib` in crates/gltf_c makes the library. It needs cc, ar, python3, tar, gzip and
# sha256sum. docs/C.md says what is in the archive. The same builds and tools, at one commit, give the
# same bytes. It doesn't ask whether the builds are current.
set -euo pipefail
export LC_ALL=C
case ${1:-} in
    -h | --help)
        sed -n '2,/^set /{/^#/s/^# \?//p}' "$0"
        exit
        ;;
    -*)
        echo "dist.sh: there is no option $1; --help says what it takes" >&2
        exit 2
        ;;
esac
top=$(cd "$(dirname "$0")/.." && pwd)
out=$(mkdir -p "${1:-$top/out}" && cd "${1:-$top/out}" && pwd)
version=$(sed -n 's/^## \([0-9].*\)$/\1/p' "$top/CHANGELOG.md" | head -n 1)
name=yorwelis-$version-linux-x86_64
lint=$top/crates/gltf_lint/out/gltf_lint
report=$top/crates/gltf_report/out/gltf_report
own=$top/crates/gltf_c/out/libgltf_c.a
kit=$(dirname "$(rt doc)")/c/liblibc_c.a

for built in "$lint" "$report" "$own"; do
    if [ ! -f "$built" ]; then
        echo "dist.sh: $built isn't there: run rt run in crates/gltf_lint and in crates/gltf_report," \
            "and rt lib in crates/gltf_c" >&2
        exit 1
    fi
done

work=$(mktemp -d)
trap 'rm -rf "$work"' EXIT
root=$work/$name
mkdir -p "$root"/{bin,include,lib/pkgconfig,lib/cmake/gltf_c,share/gltf_c}

cp "$lint" "$report" "$root/bin"
cp "$top/crates/gltf_c/include/gltf_c.h" "$root/include"
cp -R "$top/examples" "$root/share/gltf_c"
cp "$top/LICENSE" "$top/NOTICE" "$root/share/gltf_c"
# The pages for users of the programs and of the library, and those that they name most.
for page in C CODES FINDINGS LINT PERFORMANCE PROMISES SCHEMA; do
    cp "$top/docs/$page.md" "$root/share/gltf_c"
done
printf 'version: %s\ncommit: %s\nkit: %s\n' "$version" \
    "$(git -C "$top" describe --always --dirty --abbrev=40 --exclude='*' || echo unknown)" "$(rt version)" \
    > "$root/share/gltf_c/BUILD"

# One static library, with the kit's functions that take memory.
cp "$own" "$work/own.a"
cp "$kit" "$work/kit.a"
(cd "$work" && printf '%s\n' 'create both.a' 'addlib own.a' 'addlib kit.a' save end | ar -M)
ranlib -D "$work/both.a"
mv "$work/both.a" "$root/lib/libgltf_c.a"

# The shared library exports the calls of the header and nothing else.
cc -shared -Wl,-soname,libgltf_c.so.1 -Wl,--version-script="$top/tools/dist/gltf_c.map" \
    -Wl,-z,defs -Wl,-z,now -Wl,--build-id=none -Wl,--whole-archive "$own" \
    -Wl,--no-whole-archive "$kit" -o "$root/lib/libgltf_c.so.1"
ln -s libgltf_c.so.1 "$root/lib/libgltf_c.so"

for file in gltf_c.pc gltf_cConfig.cmake gltf_cConfigVersion.cmake; do
    case $file in
        *.pc) to=lib/pkgconfig ;;
        *) to=lib/cmake/gltf_c ;;
    esac
    sed "s/@VERSION@/$version/; s/@PLAIN_VERSION@/${version%%+*}/" "$top/tools/dist/$file" \
        > "$root/$to/$file"
done
cp "$top/tools/dist/Makefile" "$root"
chmod -R u=rwX,go=rX "$root"

(cd "$root" && find . -type f ! -name SHA256SUMS -print0 | sort -z | xargs -0 sha256sum) \
    > "$work/sums" && mv "$work/sums" "$root/SHA256SUMS" && chmod 644 "$root/SHA256SUMS"
tar -C "$work" --sort=name --owner=0 --group=0 --numeric-owner --mtime='1980-01-01 00:00Z' \
    -cf - "$name" | gzip -9n > "$out/$name.tar.gz"

python3 "$top/tools/dist/wheel.py" "$version" "$root/lib/libgltf_c.so.1" "$out"
cd "$out"
sha256sum "$name.tar.gz" "gltf_c-$version-py3-none-linux_x86_64.whl" > SHA256SUMS
cat SHA256SUMS
