//! Asks pkg-config where the library and its header are. PKG_CONFIG_PATH names the folder of gigbewu.pc if it isn't
//! installed for all. The static library is linked to, or with GIGBEWU_SHARED in the environment the shared one.

use std::env;
use std::process::Command;

const ASKED: [&str; 4] = [
    "PKG_CONFIG",
    "PKG_CONFIG_PATH",
    "PKG_CONFIG_SYSROOT_DIR",
    "GIGBEWU_SHARED",
];

/// The first folder that pkg-config tells with this flag, also if the compiler looks there anyway.
fn folder(asked: &str, flag: &str) -> String {
    let program = env::var("PKG_CONFIG").unwrap_or_else(|_| "pkg-config".to_string());
    let told = Command::new(&program)
        .args([asked, "gigbewu"])
        .env("PKG_CONFIG_ALLOW_SYSTEM_CFLAGS", "1")
        .env("PKG_CONFIG_ALLOW_SYSTEM_LIBS", "1")
        .output()
        .unwrap_or_else(|why| panic!("{program} can't be run: {why}"));
    let words = String::from_utf8_lossy(&told.stdout).into_owned();
    let found = words
        .split_whitespace()
        .find_map(|it| it.strip_prefix(flag));
    match found {
        Some(folder) if told.status.success() => folder.to_string(),
        _ => panic!(
            "pkg-config knows no gigbewu. Build and install the library first: by `bindings/c/install PREFIX`, \
             with PREFIX/lib/pkgconfig in PKG_CONFIG_PATH, or as the Debian package libgigbewu-dev"
        ),
    }
}

fn main() {
    for name in ASKED {
        println!("cargo:rerun-if-env-changed={name}");
    }
    let libraries = folder("--libs-only-L", "-L");
    let header = format!("{}/gigbewu.h", folder("--cflags-only-I", "-I"));
    let (kind, file) = match env::var_os("GIGBEWU_SHARED") {
        Some(_) => ("dylib", "libgigbewu.so"),
        None => ("static", "libgigbewu.a"),
    };
    println!("cargo:rerun-if-changed={libraries}/{file}");
    println!("cargo:rustc-env=GIGBEWU_HEADER={header}");
    println!("cargo:rustc-link-search=native={libraries}");
    println!("cargo:rustc-link-lib={kind}=gigbewu");
}
