//! Links the static library whose path the variable STATION_LIB holds: crates/registry_c/out/libregistry_c.a, which `rt lib` writes in crates/registry_c.
use std::env;
use std::path::PathBuf;

fn main() {
    println!("cargo:rerun-if-env-changed=STATION_LIB");
    let path = env::var_os("STATION_LIB").expect("set STATION_LIB to the path of libregistry_c.a");
    let path = PathBuf::from(path).canonicalize().expect("STATION_LIB names no file");
    println!("cargo:rerun-if-changed={}", path.display());
    let folder = path.parent().expect("a file stands in a folder");
    let file = path.file_name().and_then(|name| name.to_str()).expect("a name in UTF-8");
    let name = file.strip_prefix("lib").and_then(|rest| rest.strip_suffix(".a")).expect("a name of the form libNAME.a");
    println!("cargo:rustc-link-search=native={}", folder.display());
    println!("cargo:rustc-link-lib=static={name}");
}
