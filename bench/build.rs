//! Links the archives of the library and of what is only measured, which `rt lib` writes. Where
//! `EMETHOD_BEFORE` names the folder `crates` of another commit with its archives, they are linked too, with
//! `before_` in front of their functions' names.
//!
//! What is linked are copies in which each function begins at a multiple of 64. Where a linker puts it
//! otherwise moves the time of a load by a tenth, and differs with every change of this program.

use std::env;
use std::path::Path;
use std::process::{exit, Command};

const ARCHIVES: [(&str, &[&str]); 2] = [
    (
        "emethod_c",
        &[
            "em_check_frame",
            "em_evaluate",
            "em_running_sums",
            "em_write_frame",
            "em_write_trace",
            "em_read_trace",
        ],
    ),
    ("bench_c", &["bench_probe_load", "bench_rewrite_trace"]),
];

fn main() {
    println!("cargo:rerun-if-changed=build.rs");
    println!("cargo:rerun-if-env-changed=EMETHOD_BEFORE");
    println!("cargo:rustc-check-cfg=cfg(before)");
    if env::var_os("CARGO_FEATURE_PLAIN_ONLY").is_some() {
        return;
    }
    let here = env::var("CARGO_MANIFEST_DIR").expect("cargo names the folder of the manifest");
    link(&Path::new(&here).join("../crates"), "");
    if let Some(folder) = env::var_os("EMETHOD_BEFORE") {
        link(Path::new(&folder), "before_");
        println!("cargo:rustc-cfg=before");
    }
}

/// Copies the archives of a folder, with a prefix in front of their functions' names, and links the copies.
fn link(folder: &Path, prefix: &str) {
    let out = env::var("OUT_DIR").expect("cargo names a folder for what is made here");
    println!("cargo:rustc-link-search=native={out}");
    for (name, functions) in ARCHIVES {
        let archive = folder.join(format!("{name}/out/lib{name}.a"));
        println!("cargo:rerun-if-changed={}", archive.display());
        if !archive.exists() {
            fail(&format!(
                "no {}\nrun `rt lib` in crates/{name} of its repository first",
                archive.display()
            ));
        }
        let mut objcopy = Command::new("objcopy");
        objcopy.arg("--set-section-alignment=.text.*=64");
        for function in functions {
            objcopy.arg(format!("--redefine-sym={function}={prefix}{function}"));
        }
        objcopy.arg(&archive);
        objcopy.arg(Path::new(&out).join(format!("lib{prefix}{name}.a")));
        if !objcopy.status().is_ok_and(|status| status.success()) {
            fail(&format!("objcopy does not copy {}", archive.display()));
        }
        println!("cargo:rustc-link-lib=static={prefix}{name}");
    }
}

fn fail(what: &str) -> ! {
    eprintln!("{what}");
    exit(1)
}
