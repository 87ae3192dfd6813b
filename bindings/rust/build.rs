//! Links the library's archive, libcapi.a, from the folder LAKHIDO_LIB_DIR (a relative path is from the folder of this package), or from crates/capi/out of
//! the repository. With the feature `c-peers` it also compiles the plain C versions of benches/peers, which the benchmark times against;
//! with `older` it links the archive of an older version, too.
use std::env;
use std::path::{Path, PathBuf};
use std::process::Command;

fn main() {
    let architecture = env::var("CARGO_CFG_TARGET_ARCH").expect("cargo sets CARGO_CFG_TARGET_ARCH");
    if architecture != "x86_64" {
        println!("cargo::error=lakhido: the target is {architecture}, and the library's archive is for x86_64 alone");
        return;
    }
    let here = PathBuf::from(env::var_os("CARGO_MANIFEST_DIR").expect("cargo sets CARGO_MANIFEST_DIR"));
    println!("cargo::rerun-if-env-changed=LAKHIDO_LIB_DIR");
    // The linker runs in the folder of the workspace, which may be another: the path is absolute.
    let folder = here.join(env::var_os("LAKHIDO_LIB_DIR").unwrap_or_else(|| "../../crates/capi/out".into()));
    let archive = folder.join("libcapi.a");
    println!("cargo::rerun-if-changed={}", archive.display());
    if !archive.exists() {
        println!(
            "cargo::error=lakhido: {} is not there. Build it with `make archive` in the repository, or set LAKHIDO_LIB_DIR to the folder that holds libcapi.a",
            archive.display()
        );
        return;
    }
    println!("cargo::rustc-link-search=native={}", folder.display());
    println!("cargo::rustc-link-lib=static=capi");
    if env::var_os("CARGO_FEATURE_C_PEERS").is_some() {
        compile_peers(&here.join("benches/peers"));
    }
    if env::var_os("CARGO_FEATURE_OLDER").is_some() {
        rename_older(&here);
    }
}

/// The archive of an older version, from LAKHIDO_OLDER_LIB, with `older_` before the names of its calls, so that the benchmark `versions` can link both.
fn rename_older(here: &Path) {
    println!("cargo::rerun-if-env-changed=LAKHIDO_OLDER_LIB");
    let Some(archive) = env::var_os("LAKHIDO_OLDER_LIB").map(|path| here.join(path)) else {
        println!("cargo::error=lakhido: the feature `older` needs LAKHIDO_OLDER_LIB, the libcapi.a of an older version");
        return;
    };
    println!("cargo::rerun-if-changed={}", archive.display());
    let out = PathBuf::from(env::var_os("OUT_DIR").expect("cargo sets OUT_DIR")).join("libolder.a");
    let names = ["add", "batch", "check", "length", "query", "remove", "show", "verify", "window"];
    let renamed = names.iter().flat_map(|name| ["--redefine-sym".into(), format!("lakhido_{name}=older_lakhido_{name}")]);
    run(Command::new("objcopy").args(renamed).arg(&archive).arg(&out));
    println!("cargo::rustc-link-arg-benches={}", out.display());
}

/// The plain C versions at -O3, as one archive. CC names the compiler; else it is clang, which like the library's compiler stands on LLVM, or cc.
fn compile_peers(sources: &Path) {
    let out = PathBuf::from(env::var_os("OUT_DIR").expect("cargo sets OUT_DIR"));
    let has_clang = || Command::new("clang").arg("--version").output().is_ok();
    let compiler = env::var("CC").unwrap_or_else(|_| if has_clang() { "clang" } else { "cc" }.to_string());
    println!("cargo::rerun-if-env-changed=CC");
    println!("cargo::rerun-if-changed={}", sources.join("peer.h").display());
    let mut objects = Vec::new();
    for name in ["rows", "segments", "window", "show", "sound", "query"] {
        let (source, object) = (sources.join(name).with_extension("c"), out.join(name).with_extension("o"));
        println!("cargo::rerun-if-changed={}", source.display());
        run(Command::new(&compiler).args(["-std=gnu99", "-Wall", "-Wextra", "-O3", "-march=x86-64", "-c", "-o"]).arg(&object).arg(&source));
        objects.push(object);
    }
    run(Command::new("ar").arg("crs").arg(out.join("libpeers.a")).args(&objects));
    println!("cargo::rustc-link-search=native={}", out.display());
    println!("cargo::rustc-link-lib=static=peers");
    let version = Command::new(&compiler).arg("--version").output().map(|o| String::from_utf8_lossy(&o.stdout).into_owned());
    println!("cargo::rustc-env=LAKHIDO_PEER_COMPILER={}", version.unwrap_or_default().lines().next().unwrap_or(&compiler));
}

fn run(command: &mut Command) {
    match command.status() {
        Ok(status) if status.success() => {}
        other => println!("cargo::error=lakhido: {command:?} failed: {other:?}"),
    }
}
