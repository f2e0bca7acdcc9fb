//! Finds the library and links it: in the folder that `PERGIDAU_LIB` names; otherwise as
//! `pkg-config` reports; otherwise in `bindings/out` next to this crate, where `bindings/build`
//! puts it. If `PERGIDAU_UNPROVED` is 1, links the library that was built without proofs.
use std::env;
use std::path::{Path, PathBuf};
use std::process::Command;

const VERSION: &str = env!("CARGO_PKG_VERSION");

/// Returns the output of `pkg-config`.
fn asked(words: &[&str]) -> Option<String> {
    let program = env::var("PKG_CONFIG").unwrap_or_else(|_| "pkg-config".to_string());
    let done = Command::new(program).args(words).output().ok()?;
    let text = String::from_utf8(done.stdout).ok()?;
    done.status.success().then(|| text.trim().to_string())
}

/// Links the library from `folder` if it is there, and returns whether it is. The static library is
/// preferred to the shared one.
fn links(folder: &Path, name: &str) -> bool {
    for (file, kind) in [(format!("lib{name}.a"), "static"), (format!("lib{name}.so"), "dylib")] {
        println!("cargo:rerun-if-changed={}", folder.join(&file).display());
        if folder.join(file).is_file() {
            println!("cargo:rustc-link-search=native={}", folder.display());
            println!("cargo:rustc-link-lib={kind}={name}");
            return true;
        }
    }
    false
}

/// Whether a library of the version `found` has what this crate needs: the first number is the same,
/// and the others are not lower.
fn fits(found: &str) -> bool {
    let numbers = |text: &str| text.split('.').map_while(|it| it.parse().ok()).collect::<Vec<u64>>();
    let (found, wanted) = (numbers(found), numbers(VERSION));
    found.first() == wanted.first() && found >= wanted
}

/// The folder that `pkg-config` names, if the library there fits this crate.
fn installed(name: &str) -> Result<PathBuf, String> {
    let found = asked(&["--modversion", name]).ok_or("pkg-config finds none")?;
    if !fits(&found) {
        return Err(format!("pkg-config finds version {found}"));
    }
    asked(&["--variable=libdir", name]).map(PathBuf::from).ok_or("pkg-config reports no folder".into())
}

fn main() {
    for name in ["PERGIDAU_LIB", "PERGIDAU_UNPROVED", "PKG_CONFIG", "PKG_CONFIG_PATH", "DOCS_RS"] {
        println!("cargo:rerun-if-env-changed={name}");
    }
    // Nothing is linked on docs.rs, which only builds documentation.
    if env::var_os("DOCS_RS").is_some() {
        return;
    }
    let is_unproved = env::var("PERGIDAU_UNPROVED").is_ok_and(|it| it == "1");
    let name = if is_unproved { "pergidau_unproved" } else { "pergidau" };
    let here = PathBuf::from(env::var("CARGO_MANIFEST_DIR").unwrap()).join("../out");
    let asked_for = env::var("PERGIDAU_LIB").map(PathBuf::from);
    let installed = installed(name);
    let folders = match (&asked_for, &installed) {
        (Ok(folder), _) => vec![folder],
        (_, Ok(folder)) => vec![folder, &here],
        _ => vec![&here],
    };
    if folders.iter().any(|it| links(it, name)) {
        return;
    }
    let build = if is_unproved { "bindings/build --unproved" } else { "bindings/build" };
    eprintln!("no lib{name}.a or lib{name}.so of version {VERSION} found:");
    match (asked_for, installed) {
        (Ok(folder), _) => eprintln!("- PERGIDAU_LIB is {}", folder.display()),
        (_, Ok(folder)) => eprintln!("- pkg-config reports {}", folder.display()),
        (_, Err(why)) => eprintln!("- PERGIDAU_LIB is not set, and {why}"),
    }
    eprintln!("Build it in a clone of Pergidau (requires Rattle's rt, a C compiler and ar):");
    eprintln!("    {build}");
    eprintln!("then set PERGIDAU_LIB to its folder bindings/out, or install it and set PKG_CONFIG_PATH:");
    eprintln!("    make -C bindings install PREFIX=/usr/local");
    if !is_unproved {
        eprintln!("To try it without proofs (a minute or two), run bindings/build --unproved, and set");
        eprintln!("PERGIDAU_UNPROVED=1 here.");
    }
    std::process::exit(1);
}
