//! Compiles the readers in C and C++, and links them with their libraries. The environment variables
//! `CC`, `CXX` and `AR` replace `cc`, `c++` and `ar`.
use std::env;
use std::path::PathBuf;
use std::process::Command;

/// The processor that this library is compiled for.
const CPU: &str = "-march=x86-64-v2";

fn run(tool: &str, usual: &str, words: &[&str]) {
    println!("cargo:rerun-if-env-changed={tool}");
    let program = env::var(tool).unwrap_or_else(|_| usual.to_string());
    let done = Command::new(&program).args(words).status();
    assert!(done.is_ok_and(|it| it.success()), "{program} {words:?} failed");
}

fn main() {
    println!("cargo:rerun-if-changed=peers");
    let out = PathBuf::from(env::var("OUT_DIR").unwrap());
    let place = |name: &str| out.join(name).to_str().unwrap().to_string();
    let (c, json, toml) = (place("c.o"), place("json.o"), place("toml.o"));
    let archive = place("libpeers.a");
    run("CC", "cc", &["-std=c11", "-O3", CPU, "-Wall", "-Wextra", "-c", "peers/peers.c", "-o", &c]);
    for (file, object) in [("peers/json.cpp", &json), ("peers/toml.cpp", &toml)] {
        run("CXX", "c++", &["-std=c++17", "-O3", CPU, "-Wall", "-Wextra", "-c", file, "-o", object]);
    }
    run("AR", "ar", &["rcs", &archive, &c, &json, &toml]);
    println!("cargo:rustc-link-search=native={}", out.display());
    println!("cargo:rustc-link-lib=static=peers");
    for name in ["cjson", "csv", "hiredis", "http_parser", "inih", "simdjson", "stdc++"] {
        println!("cargo:rustc-link-lib=dylib={name}");
    }
}
