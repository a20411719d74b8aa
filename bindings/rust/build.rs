//! Tells the linker where the archives are: in the folder that SNJOFRASK_LIB names, or where `firmware/build` writes them.
use std::env;
use std::path::PathBuf;
use std::process::exit;

/// Where the archives for a processor are written below the repository's target, and by what.
fn written(processor: &str) -> Option<(String, String)> {
    let name = match processor {
        "x86_64" => return Some(("staticlib".into(), "firmware/build x86_64".into())),
        "thumbv7em" => "thumbv7em-none-eabi",
        "thumbv8m.main" => "thumbv8m.main-none-eabi",
        "riscv32imac" => "riscv32imac",
        "aarch64" => "aarch64",
        _ => return None,
    };
    Some((format!("firmware/{name}"), format!("firmware/build {name}")))
}

fn find(library: &str) {
    let target = env::var("TARGET").unwrap();
    let Some((written, command)) = written(target.split('-').next().unwrap()) else {
        eprintln!("there is no lib{library}.a for {target}");
        exit(1);
    };
    let folder = match env::var_os("SNJOFRASK_LIB") {
        Some(folder) => PathBuf::from(folder),
        None => PathBuf::from(env::var_os("CARGO_MANIFEST_DIR").unwrap())
            .join("../../target")
            .join(written),
    };
    let archive = folder.join(format!("lib{library}.a"));
    if !archive.is_file() {
        eprintln!(
            "no {}: run `{command}`, or name its folder in SNJOFRASK_LIB",
            archive.display()
        );
        exit(1);
    }
    println!("cargo::rustc-link-search=native={}", folder.display());
    println!("cargo::rerun-if-changed={}", archive.display());
}

fn main() {
    find("snjofrask");
    if env::var_os("CARGO_FEATURE_VENDOR_HID").is_some() {
        find("snjofrask_key");
    }
    println!("cargo::rerun-if-env-changed=SNJOFRASK_LIB");
}
