//! Links the static library that `make_library.sh` builds.
use std::env;
use std::path::PathBuf;

fn main() {
    let bench = PathBuf::from(env::var("CARGO_MANIFEST_DIR").unwrap());
    let folder = bench.join("target/library/crates/dns_bench_c/out");
    println!("cargo:rustc-link-search=native={}", folder.display());
    println!("cargo:rustc-link-lib=static=dns_bench_c");
    let file = folder.join("libdns_bench_c.a");
    println!("cargo:rerun-if-changed={}", file.display());
}
