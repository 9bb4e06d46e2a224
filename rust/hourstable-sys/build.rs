//! Links libhourstable: from the folder HOURSTABLE_LIB_DIR; else as `pkg-config hourstable` says, if it knows it; else
//! from where the linker looks. The archive is linked if HOURSTABLE_STATIC is set, and otherwise the shared object.
use std::env;
use std::process::Command;

fn main() {
    for name in ["HOURSTABLE_LIB_DIR", "HOURSTABLE_STATIC", "PKG_CONFIG_PATH"] {
        println!("cargo:rerun-if-env-changed={name}");
    }
    for folder in folders() {
        println!("cargo:rustc-link-search=native={folder}");
    }
    let kind = if env::var_os("HOURSTABLE_STATIC").is_some() { "static" } else { "dylib" };
    println!("cargo:rustc-link-lib={kind}=hourstable");
}

fn folders() -> Vec<String> {
    if let Ok(folder) = env::var("HOURSTABLE_LIB_DIR") {
        return vec![folder];
    }
    let asked = Command::new("pkg-config").args(["--libs-only-L", "hourstable"]).output();
    let told = asked
        .ok()
        .filter(|it| it.status.success())
        .and_then(|it| String::from_utf8(it.stdout).ok());
    let told = told.unwrap_or_default();
    told.split_whitespace().filter_map(|word| word.strip_prefix("-L")).map(String::from).collect()
}
