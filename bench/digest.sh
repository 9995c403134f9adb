#!/bin/sh
# Times SHA-256 of this repository beside a plain Rust implementation, the sha2 crate's portable code (where Debian's
# librust-sha2-dev is installed) and OpenSSL (libssl-dev) with all its instructions, without SHA instructions, and with plain
# x86-64 code. A ratio is the time of that one by ours: over 1, ours is faster. Not part of the gate.
# Needs rt, cargo and a C library; writes to target/bench alone.
set -eu
root=$(cd "$(dirname "$0")/.." && pwd)
cd "$root"
(cd crates/digest_c && rt lib) >/dev/null
work=$root/target/bench
registry=/usr/share/cargo/registry
mkdir -p "$work/.cargo"
cat >"$work/Cargo.toml" <<END
[package]
name = "digest_bench"
version = "0.0.0"
edition = "2024"
[[bin]]
name = "digest_bench"
path = "$root/bench/src/main.rs"
[profile.release]
opt-level = 3
[lints.rust]
unexpected_cfgs = { level = "allow", check-cfg = ['cfg(has_sha2)'] }
[workspace]
END
flags="-L native=$root/crates/digest_c/out -l static=digest_c -l dylib=crypto"
if ls -d "$registry"/sha2-0.10.* >/dev/null 2>&1; then
    cat >>"$work/Cargo.toml" <<END
[dependencies]
sha2 = { version = "0.10", features = ["force-soft"] }
END
    cat >"$work/.cargo/config.toml" <<END
[source.crates-io]
replace-with = "debian"
[source.debian]
directory = "$registry"
END
    flags="$flags --cfg has_sha2"
else
    echo "the sha2 crate is left out: $registry has none (Debian: librust-sha2-dev)"
fi
(cd "$work" && RUSTFLAGS="$flags" cargo build --quiet --release --offline)
run() {
    echo "OpenSSL $1"
    shift
    env "$@" "$work/target/release/digest_bench"
    echo
}
run "with all its instructions" DIGEST_BENCH=1
run "without the SHA instructions" OPENSSL_ia32cap='~0x0:~0x20000000'
run "with plain x86-64 code" OPENSSL_ia32cap='0x0:0x0'
