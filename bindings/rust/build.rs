//! Finds libriegeli: RIEGELI_LIBRARY names it or the folder of libriegeli.a, `bindings/c/build` makes it, or pkg-config knows.
use std::env;
use std::path::PathBuf;
use std::process::Command;

fn named() -> PathBuf {
    if let Some(named) = env::var_os("RIEGELI_LIBRARY") {
        return named.into();
    }
    let built = PathBuf::from(env::var_os("CARGO_MANIFEST_DIR").unwrap()).join("../c/out/lib");
    if built.exists() {
        return built;
    }
    let told = Command::new("pkg-config").args(["--variable=libdir", "riegeli"]).output();
    PathBuf::from(String::from_utf8(told.map_or(Vec::new(), |it| it.stdout)).unwrap().trim())
}

fn main() {
    let mut library = named();
    if library.is_dir() {
        library.push("libriegeli.a");
    }
    let Ok(library) = library.canonicalize() else {
        panic!("{} is not there: bindings/c/build makes it, and RIEGELI_LIBRARY says where it is", library.display());
    };
    let kind = if library.extension().is_some_and(|it| it == "a") { "static" } else { "dylib" };
    println!("cargo:rerun-if-env-changed=RIEGELI_LIBRARY");
    println!("cargo:rerun-if-changed={}", library.display());
    println!("cargo:rustc-link-search=native={}", library.parent().unwrap().display());
    println!("cargo:rustc-link-lib={kind}:+verbatim={}", library.file_name().unwrap().to_string_lossy());
}
