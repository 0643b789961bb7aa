//! Programs in C that use the product's archive by emethod.h, built in C99 and as C++, and run.

use std::env;
use std::path::Path;
use std::process::Command;

/// Each program below the repository's root, and what it has to print.
const PROGRAMS: [(&str, &str); 2] = [
    (
        "crates/emethod_c/example.c",
        "0.65625 0.5\n6 steps, 2 additions\n",
    ),
    ("bench/null.c", "1 1 23 12 23 1 23 1 23 1 23\n"),
];

/// The compilers, with the words before the program's name and after it.
const COMPILERS: [(&str, &[&str], &[&str]); 2] = [
    ("cc", &["-std=c99"], &[]),
    ("c++", &["-x", "c++"], &["-x", "none"]),
];

/// Builds and runs all of them. A warning counts as a difference.
pub fn run() -> Result<(), String> {
    let root = Path::new(env!("CARGO_MANIFEST_DIR")).join("..");
    let built = env::current_exe()
        .map_err(|error| format!("where this program stands: {error}"))?
        .with_file_name("from_c");
    for (program, expected) in PROGRAMS {
        for (compiler, before, after) in COMPILERS {
            let mut build = Command::new(compiler);
            build.args(["-Wall", "-Wextra", "-pedantic", "-Werror"]);
            build.arg("-I").arg(root.join("crates/emethod_c"));
            build.args(before).arg(root.join(program)).args(after);
            build.arg(root.join("crates/emethod_c/out/libemethod_c.a"));
            let done = build.arg("-o").arg(&built).status();
            if !done
                .map_err(|error| format!("{compiler}: {error}"))?
                .success()
            {
                return Err(format!("{compiler} does not build {program}"));
            }
            let run = Command::new(&built).output();
            let run = run.map_err(|error| format!("{program} by {compiler}: {error}"))?;
            let printed = String::from_utf8_lossy(&run.stdout);
            if !run.status.success() || printed != expected {
                return Err(format!(
                    "{program} by {compiler} prints {printed:?}, not {expected:?}"
                ));
            }
        }
    }
    Ok(())
}
