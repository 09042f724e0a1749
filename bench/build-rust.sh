#!/bin/sh
# build-rust.sh OUT [CRATES]: builds the Rust peers with plain rustc. CRATES is the folder that Debian's packages
# librust-*-dev unpack into; without hashbrown there, its peers are left out.
set -eu
out=$1
crates=${2:-/usr/share/cargo/registry}
here=$(cd "$(dirname "$0")" && pwd)
lib=$out/rlibs
mkdir -p "$lib"
flags="-C opt-level=3 -C codegen-units=1 --cap-lints allow -L dependency=$lib ${RUST_FLAGS:-}"

# newest NAME: the folder of the newest version there
newest() {
    ls -d "$crates/$1"-[0-9]* | sort -V | tail -1
}

# on CRATE..: the options that name these crates
on() {
    for dep in "$@"; do
        printf ' --extern %s=%s' "$dep" "$lib/lib$dep.rlib"
    done
}

# build NAME ARG..: that package as a library
build() {
    folder=$(newest "$1")
    crate=$(echo "$1" | tr - _)
    shift
    edition=$(sed -n 's/^edition *= *"\(.*\)"/\1/p' "$folder/Cargo.toml" | head -1)
    [ -f "$lib/lib$crate.rlib" ] || rustc $flags --edition "${edition:-2015}" --crate-type rlib \
        --crate-name "$crate" --out-dir "$lib" "$@" "$folder/src/lib.rs"
}

if ! ls -d "$crates"/hashbrown-[0-9]* > /dev/null 2>&1; then
    echo "missing: librust-hashbrown-dev (needed for hashbrown)" >&2
    rustc $flags --edition 2021 -o "$out/peers-rust" "$here/rust/main.rs"
    exit
fi
# libc asks its build script which names this compiler knows
if [ ! -f "$lib/libc.cfg" ]; then
    libc=$(newest libc)
    rustc --cap-lints allow --crate-name libc_build -o "$lib/libc_build" "$libc/build.rs"
    (cd "$libc" && RUSTC=rustc OUT_DIR="$lib" TARGET="$(rustc -vV | sed -n 's/^host: //p')" "$lib/libc_build") |
        sed -n 's/^cargo:rustc-cfg=/--cfg /p' > "$lib/libc.cfg"
fi
build cfg-if
build once_cell --cfg 'feature="std"' --cfg 'feature="alloc"' --cfg 'feature="race"'
build libc --cfg 'feature="std"' $(cat "$lib/libc.cfg")
build getrandom $(on cfg_if libc)
build ahash --cfg 'feature="std"' --cfg 'feature="runtime-rng"' --cfg 'feature="folded_multiply"' $(on getrandom once_cell)
build hashbrown --cfg 'feature="ahash"' --cfg 'feature="inline-more"' $(on ahash)
if ls -d "$crates"/lru-[0-9]* > /dev/null 2>&1; then
    build lru --cfg 'feature="hashbrown"' $(on hashbrown)
    flags="$flags --cfg with_lru $(on lru)"
else
    echo "missing: librust-lru-dev (needed for lru)" >&2
fi
if ls -d "$crates"/dashmap-[0-9]* > /dev/null 2>&1; then
    build scopeguard
    build smallvec
    build lock_api --cfg has_const_fn_trait_bound $(on scopeguard)
    build parking_lot_core $(on cfg_if libc smallvec)
    build dashmap $(on cfg_if hashbrown lock_api once_cell parking_lot_core)
    flags="$flags --cfg with_dashmap $(on dashmap)"
else
    echo "missing: librust-dashmap-dev (needed for dashmap)" >&2
fi
rustc $flags --edition 2021 --cfg with_hashbrown $(on hashbrown) -o "$out/peers-rust" "$here/rust/main.rs"
