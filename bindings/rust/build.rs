//! Links the library, which stands in this crate as it is packaged, and else where `bindings/build` makes it.
use std::env;
use std::path::PathBuf;

fn main() {
    let here = PathBuf::from(env::var("CARGO_MANIFEST_DIR").unwrap());
    let places = [here.join("lib"), here.join("../out")];
    let there = places.iter().find(|place| place.join("libbikleinu.a").exists());
    let folder = env::var("BIKLEINU_FOLDER").map_or(there.unwrap_or(&places[1]).clone(), PathBuf::from);
    if !folder.join("libbikleinu.a").exists() {
        println!(
            "cargo:warning=there is no libbikleinu.a in {}: run `bindings/build` at the top of the repository, or set \
             BIKLEINU_FOLDER to the folder that has it",
            folder.display()
        );
    }
    println!("cargo:rerun-if-env-changed=BIKLEINU_FOLDER");
    println!("cargo:rerun-if-changed={}", folder.join("libbikleinu.a").display());
    println!("cargo:rustc-link-search=native={}", folder.display());
    println!("cargo:rustc-link-lib=static=bikleinu");
}
