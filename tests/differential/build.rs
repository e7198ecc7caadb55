//! Lays the Rust's sources, byte for byte, beside a module that names them; RS_MATTER is the checkout they are taken from.
use std::path::{Path, PathBuf};
use std::{env, fs};

const FILES: [&str; 3] = ["parser.rs", "parser/ast.rs", "parser/endpoint_composition.rs"];

fn main() {
    println!("cargo:rerun-if-env-changed=RS_MATTER");
    let root = PathBuf::from(env::var("RS_MATTER").unwrap_or("../../../shared/docs/src".into()));
    let idl = root.join("rs-matter-codegen/src/idl");
    let to = Path::new(&env::var("OUT_DIR").unwrap()).join("idl");
    fs::create_dir_all(to.join("parser")).unwrap();
    for file in FILES {
        let from = idl.join(file);
        println!("cargo:rerun-if-changed={}", from.display());
        let text = fs::read(&from).unwrap_or_else(|e| panic!("{}: {e}; set RS_MATTER to a checkout of rs-matter", from.display()));
        fs::write(to.join(file), text).unwrap();
    }
    fs::write(to.join("mod.rs"), "pub mod parser;\n").unwrap();
    // A path attribute takes a literal only, so that the line with it is written here.
    let line = format!("#[path = {:?}]\n#[allow(dead_code)]\npub mod idl;\n", to.join("mod.rs"));
    fs::write(to.join("../rust.rs"), line).unwrap();
    println!("cargo:rustc-env=RUST_SOURCES={}", idl.canonicalize().unwrap().display());

    if env::var("CARGO_FEATURE_LIBRARY").is_ok() {
        println!("cargo:rerun-if-env-changed=MATTER_IDL_LIB");
        let folder = env::var("MATTER_IDL_LIB").unwrap_or("../../target/staticlib".into());
        let folder = Path::new(&folder).canonicalize().unwrap_or_else(|e| panic!("{folder}: {e}; set MATTER_IDL_LIB"));
        println!("cargo:rustc-link-search=native={}", folder.display());
        println!("cargo:rustc-link-lib=static=matter_idl");
        println!("cargo:rerun-if-changed={}", folder.join("libmatter_idl.a").display());
    }
}
