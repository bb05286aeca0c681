//! Compiles the C loop that `run` is measured beside, and the clock.

use std::env;
use std::path::{Path, PathBuf};
use std::process::Command;

fn main() {
    println!("cargo:rerun-if-changed=c");
    let out = PathBuf::from(env::var_os("OUT_DIR").expect("cargo sets OUT_DIR"));
    let archive = out.join("libcloop.a");
    let objects = ["run", "clock"].map(|name| compiled(name, &out));
    finish(Command::new("ar").arg("crs").arg(archive).args(objects));
    println!("cargo:rustc-link-search=native={}", out.display());
    println!("cargo:rustc-link-lib=static=cloop");
}

fn compiled(name: &str, out: &Path) -> PathBuf {
    let object = out.join(name).with_extension("o");
    let source = Path::new("c").join(name).with_extension("c");
    let mut gcc = Command::new("gcc");
    gcc.args(["-O3", "-std=c11", "-Wall", "-Wextra", "-Werror", "-c"]);
    finish(gcc.arg(source).arg("-o").arg(&object));
    object
}

fn finish(command: &mut Command) {
    let status = command.status();
    let done = status.as_ref().is_ok_and(|status| status.success());
    assert!(done, "{command:?}: {status:?}");
}
