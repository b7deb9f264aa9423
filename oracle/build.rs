//! Writes the two module trees of the kernel, from the folder in KERNEL_SRC: the
//! published files unchanged, and copies of them with what document 02 asks for.

use std::path::{Path, PathBuf};
use std::{env, fs};

#[path = "src/changes.rs"]
mod changes;

use changes::CHANGES;

/// Compiled whole and unchanged, as modules of `backtest::kernel`.
const KERNEL: [&str; 11] = [
    "account", "book", "config", "data", "encode", "gate", "grid", "ledger", "rng", "state", "step",
];

/// The folder that holds `src/backtest`: KERNEL_SRC, or `shared/docs/src`
/// beside one of the folders above this crate.
fn source() -> PathBuf {
    if let Some(folder) = env::var_os("KERNEL_SRC") {
        return std::path::absolute(folder).expect("absolute path");
    }
    let here = PathBuf::from(env::var_os("CARGO_MANIFEST_DIR").expect("manifest folder"));
    here.ancestors()
        .map(|up| up.join("shared/docs/src"))
        .find(|folder| folder.join("src/backtest/kernel/step.rs").is_file())
        .unwrap_or_else(|| panic!("set KERNEL_SRC to the folder of the published sources"))
}

fn file(path: &Path) {
    assert!(path.is_file(), "{} is missing", path.display());
    println!("cargo::rerun-if-changed={}", path.display());
}

/// Ours, inside the kernel's module.
const INSIDE: [&str; 3] = ["hedge", "observe", "glue"];

/// A module tree over these files: each by its name, `latency` above the kernel.
fn tree(to: &Path, files: &[(&str, PathBuf)]) {
    let mut out = String::new();
    let mut kernel = String::new();
    for (name, path) in files {
        let module = format!("#[path = {path:?}]\npub mod {name};\n");
        match *name {
            "latency" => out += &module,
            _ => kernel += &module,
        }
    }
    out += "pub use crate::stand_ins::{data, engine};\n";
    out += &format!("pub mod kernel {{\n{kernel}pub use observe::FinancialKernel;\n}}\n");
    fs::write(to, out).expect("write a module tree");
}

/// The file's text with its changes, as one of the tree `requests`.
fn changed(name: &str, path: &Path) -> String {
    let mut text = fs::read_to_string(path).expect("read a file");
    for change in CHANGES.iter().filter(|change| change.file == name) {
        let times = text.matches(change.old).count();
        assert!(
            times == 1,
            "{:?} stands {times} times in {name}",
            change.old
        );
        text = text.replacen(change.old, change.new, 1);
    }
    text.replace("crate::backtest", "crate::requests")
}

fn main() {
    println!("cargo::rerun-if-env-changed=KERNEL_SRC");
    println!("cargo::rerun-if-changed=build.rs");
    println!("cargo::rerun-if-changed=src/changes.rs");
    let source = source();
    let folder = PathBuf::from(env::var_os("CARGO_MANIFEST_DIR").expect("manifest folder"));
    let inside = folder.join("src/inside");
    let out = PathBuf::from(env::var_os("OUT_DIR").expect("output folder"));

    let mut published = vec!["src/backtest/latency.rs".to_string()];
    published.extend(KERNEL.map(|name| format!("src/backtest/kernel/{name}.rs")));
    println!("cargo::rustc-env=KERNEL_FROM={}", source.display());
    println!("cargo::rustc-env=KERNEL_FILES={}", published.join(" "));

    let names = ["latency"].into_iter().chain(KERNEL);
    let mut files: Vec<(&str, PathBuf)> = names
        .zip(&published)
        .map(|(name, path)| (name, source.join(path)))
        .collect();
    files.extend(INSIDE.map(|name| (name, inside.join(format!("{name}.rs")))));
    for (_, path) in &files {
        file(path);
    }
    tree(&out.join("backtest.rs"), &files);

    // A mutant's folder has a ceiling.rs of its own.
    let ceiling = Some(source.join("ceiling.rs"))
        .filter(|path| path.is_file())
        .unwrap_or_else(|| inside.join("ceiling.rs"));
    file(&ceiling);
    files.push(("ceiling", ceiling));
    let copies = out.join("requests");
    fs::create_dir_all(&copies).expect("make a folder");
    let files: Vec<(&str, PathBuf)> = files
        .iter()
        .map(|(name, path)| {
            let copy = copies.join(format!("{name}.rs"));
            fs::write(&copy, changed(name, path)).expect("write a copy");
            (*name, copy)
        })
        .collect();
    for change in CHANGES {
        assert!(
            files.iter().any(|(name, _)| *name == change.file),
            "there is no {}",
            change.file
        );
    }
    tree(&out.join("requests.rs"), &files);
}
