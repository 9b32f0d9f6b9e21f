//! Links librbc and libertms, as `make install` puts them: from the folder that RBC_LIBRARY names, or else the one that
//! pkg-config knows.

use std::process::Command;

fn main() {
    println!("cargo:rerun-if-env-changed=RBC_LIBRARY");
    println!("cargo:rerun-if-env-changed=PKG_CONFIG_PATH");
    let folder = std::env::var("RBC_LIBRARY").unwrap_or_else(|_| installed());
    let kind = if std::env::var_os("CARGO_FEATURE_SHARED").is_some() { "dylib" } else { "static:-bundle" };
    println!("cargo:rustc-link-search=native={folder}");
    println!("cargo:rustc-link-lib={kind}=rbc");
    println!("cargo:rustc-link-lib={kind}=ertms");
}

fn installed() -> String {
    let found = Command::new("pkg-config").args(["--variable=libdir", "rbc"]).output();
    match found {
        Ok(output) if output.status.success() => String::from_utf8_lossy(&output.stdout).trim().to_string(),
        _ => panic!("pkg-config does not know rbc: set PKG_CONFIG_PATH, or RBC_LIBRARY to the folder of librbc.a"),
    }
}
