//! Links what `measure` names: the library with the port's functions, and what that needs.
use std::env;

fn main() {
    println!("cargo::rerun-if-changed=link.rs");
    for program in ["calls", "parsers"] {
        let variable = format!("LINK_{}", program.to_uppercase());
        println!("cargo::rerun-if-env-changed={variable}");
        for file in env::split_paths(&env::var_os(&variable).unwrap_or_default()) {
            println!("cargo::rerun-if-changed={}", file.display());
            println!("cargo::rustc-link-arg-bin={program}={}", file.display());
        }
    }
}
