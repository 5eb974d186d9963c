//! Lays the originals of oxml, byte for byte, into cargo's own output folder, with stubs for the files that they name and that are not at hand.
//! `mod builder;` in tree.rs is looked for beside the other files of tree/, so the originals can't be compiled where they lie.

use std::path::{Path, PathBuf};
use std::{env, fs};

/// The files of crates/oxml/src that the calls rest on. tree.rs becomes tree/mod.rs, which is the same module to the compiler.
const ORIGINALS: [(&str, &str); 8] = [
    ("xml.rs", "xml.rs"),
    ("tree.rs", "tree/mod.rs"),
    ("tree/attributes.rs", "tree/attributes.rs"),
    ("tree/blocks.rs", "tree/blocks.rs"),
    ("tree/compact.rs", "tree/compact.rs"),
    ("tree/error.rs", "tree/error.rs"),
    ("tree/mutate.rs", "tree/mutate.rs"),
    ("tree/names.rs", "tree/names.rs"),
];

/// What tree.rs names and was not handed over.
const STUBS: [(&str, &str); 2] =
    [("stub/builder.rs", "tree/builder.rs"), ("stub/mutation_tests.rs", "tree/mutation_tests.rs")];

fn main() {
    println!("cargo:rerun-if-env-changed=OXML_SRC");
    let given = env::var("OXML_SRC").expect("OXML_SRC names the folder that holds crates/oxml/src");
    let originals = PathBuf::from(given).join("crates/oxml/src");
    let out = PathBuf::from(env::var("OUT_DIR").expect("cargo gives OUT_DIR"));
    fs::create_dir_all(out.join("tree")).expect("a folder for the originals");
    for (from, to) in ORIGINALS {
        lay(&originals.join(from), &out.join(to));
    }
    for (from, to) in STUBS {
        lay(Path::new(from), &out.join(to));
    }
    fs::write(out.join("originals.rs"), modules(&out)).expect("the module list");
}

fn lay(from: &Path, to: &Path) {
    println!("cargo:rerun-if-changed={}", from.display());
    let bytes = fs::read(from).unwrap_or_else(|e| panic!("{}: {e}", from.display()));
    fs::write(to, bytes).unwrap_or_else(|e| panic!("{}: {e}", to.display()));
}

/// The two modules that the rest of the crate sees, under the names that they have in oxml.
fn modules(out: &Path) -> String {
    let tree = out.join("tree/mod.rs");
    let xml = out.join("xml.rs");
    format!(
        "#[allow(dead_code, unused_imports)]\n#[path = {tree:?}]\nmod tree;\n#[allow(dead_code)]\n#[path = {xml:?}]\nmod xml;\n"
    )
}
