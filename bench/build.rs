//! Links the library's workloads, and the C half of the kit's allocator. `run.sh` passes their
//! paths.
use std::env;

fn main() {
    for name in ["TIMED", "KIT_C"] {
        println!("cargo:rerun-if-env-changed={name}");
        let folder = env::var(name).unwrap_or_else(|_| panic!("run.sh sets {name}"));
        println!("cargo:rustc-link-search=native={folder}");
        println!("cargo:rerun-if-changed={folder}");
    }
    println!("cargo:rustc-link-lib=static=timed");
    println!("cargo:rustc-link-lib=static=libc_c");
    if env::var_os("CARGO_FEATURE_REQUESTS").is_some() {
        for name in ["malloc", "calloc", "realloc"] {
            println!("cargo:rustc-link-arg=-Wl,--wrap={name}");
        }
    }
}
