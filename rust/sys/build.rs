//! Where the static library lies: in the folder of CSICODEC_LIB, in this package, where pkg-config finds the same version, or in dist/
//! of the repository that this package is a part of, where gzip unpacks it. With the feature `portable` it is compiled here, of the file of C in this package.

use std::env;
use std::fs::File;
use std::path::{Path, PathBuf};
use std::process::Command;

const ARCHIVE: &str = "libcsicodec.a";

fn has_archive(folder: &Path) -> bool {
    folder.join(ARCHIVE).is_file()
}

fn told() -> Option<PathBuf> {
    println!("cargo:rerun-if-env-changed=CSICODEC_LIB");
    let folder = PathBuf::from(env::var_os("CSICODEC_LIB").filter(|name| !name.is_empty())?);
    let folder = std::path::absolute(&folder).unwrap_or(folder);
    if !has_archive(&folder) {
        panic!(
            "CSICODEC_LIB is {}, where no {ARCHIVE} is",
            folder.display()
        );
    }
    Some(folder)
}

fn installed() -> Option<PathBuf> {
    for name in [
        "PKG_CONFIG_PATH",
        "PKG_CONFIG_LIBDIR",
        "PKG_CONFIG_SYSROOT_DIR",
    ] {
        println!("cargo:rerun-if-env-changed={name}");
    }
    let answer = Command::new("pkg-config")
        .env("PKG_CONFIG_ALLOW_SYSTEM_LIBS", "1")
        .args([
            "--libs-only-L",
            concat!("csicodec = ", env!("CARGO_PKG_VERSION")),
        ])
        .output()
        .ok()
        .filter(|answer| answer.status.success())?;
    let folders = String::from_utf8(answer.stdout).ok()?;
    folders
        .trim()
        .split(" -L")
        .map(|folder| PathBuf::from(folder.trim_start_matches("-L").trim()))
        .find(|folder| has_archive(folder))
}

/// The archive of a folder of dist/, unpacked.
fn unpacked(folder: &str) -> Option<PathBuf> {
    let packed = PathBuf::from(env::var_os("CARGO_MANIFEST_DIR")?)
        .join(folder)
        .join(format!("{ARCHIVE}.gz"));
    if !packed.is_file() {
        return None;
    }
    println!("cargo:rerun-if-changed={}", packed.display());
    let folder = PathBuf::from(env::var_os("OUT_DIR")?);
    let file = File::create(folder.join(ARCHIVE)).ok()?;
    match Command::new("gzip")
        .arg("-dc")
        .arg(&packed)
        .stdout(file)
        .status()
    {
        Ok(status) if status.success() => Some(folder),
        failed => panic!("gzip -dc {}: {failed:?}", packed.display()),
    }
}

fn told_of(name: &str) -> String {
    env::var(name).unwrap_or_default()
}

/// That of the package, or of the repository.
fn beside(folder: &str) -> Option<PathBuf> {
    let folder = PathBuf::from(env::var_os("CARGO_MANIFEST_DIR")?).join(folder);
    has_archive(&folder).then_some(folder)
}

/// The name of the target as the folders of lib/ have it, if releases have an archive for it.
fn known() -> Option<String> {
    let processor = told_of("CARGO_CFG_TARGET_ARCH");
    let is_wide = told_of("CARGO_CFG_TARGET_POINTER_WIDTH") == "64"
        && told_of("CARGO_CFG_TARGET_ENDIAN") == "little";
    let system = told_of("CARGO_CFG_TARGET_OS");
    let is_gnu = told_of("CARGO_CFG_TARGET_ENV") == "gnu";
    match (system.as_str(), processor.as_str()) {
        ("linux", "x86_64" | "aarch64") if is_wide => {
            Some(format!("{processor}-unknown-linux-gnu"))
        }
        ("windows", "x86_64") if is_gnu => Some("x86_64-pc-windows-gnu".to_string()),
        _ => None,
    }
}

/// The environment's word for a tool of the target, or this one.
fn tool(name: &str, other: &str) -> String {
    let target = told_of("TARGET");
    [
        format!("{name}_{target}"),
        format!("{name}_{}", target.replace('-', "_")),
        format!("TARGET_{name}"),
        name.to_string(),
    ]
    .iter()
    .inspect(|name| println!("cargo:rerun-if-env-changed={name}"))
    .find_map(|name| env::var(name).ok())
    .unwrap_or_else(|| other.to_string())
}

fn run(tool: &str, words: &[&str], folder: &Path) {
    match Command::new(tool).args(words).current_dir(folder).status() {
        Ok(status) if status.success() => {}
        failed => panic!("{tool} {}: {failed:?}", words.join(" ")),
    }
}

/// The archive that a C compiler makes of the file of C, if the feature asks for it.
fn compiled() -> Option<PathBuf> {
    env::var_os("CARGO_FEATURE_PORTABLE")?;
    let source = PathBuf::from(env::var_os("CARGO_MANIFEST_DIR")?).join("portable");
    let folder = PathBuf::from(env::var_os("OUT_DIR")?);
    let file = source.join("csicodec-portable.c");
    if !file.is_file() {
        panic!("no {}, which the package of a release has", file.display());
    }
    let include = format!("-I{}", source.join("include").display());
    let words = ["-O2", "-w", "-fPIC", &include, "-c", "-o", "csicodec.o"];
    run(
        &tool("CC", "cc"),
        &[&words[..], &[&file.display().to_string()]].concat(),
        &folder,
    );
    run(&tool("AR", "ar"), &["crs", ARCHIVE, "csicodec.o"], &folder);
    Some(folder)
}

fn main() {
    println!("cargo:rerun-if-changed=build.rs");
    let is_documented = env::var_os("DOCS_RS").is_some();
    let known = known();
    let found = told()
        .or_else(compiled)
        .or_else(|| beside(&format!("lib/{}", known.as_deref()?)))
        .or_else(|| known.as_deref().and_then(|_| installed()))
        .or_else(|| {
            let (place, _) = known.as_deref()?.split_once("-unknown-linux-gnu")?;
            unpacked(&format!("../../dist/{place}-linux"))
        });
    match found {
        Some(folder) => {
            if Some(folder.as_os_str()) != env::var_os("OUT_DIR").as_deref() {
                println!("cargo:rerun-if-changed={}", folder.join(ARCHIVE).display());
            }
            println!("cargo:rustc-link-search=native={}", folder.display());
            println!("cargo:rustc-link-lib=static=csicodec");
        }
        None if is_documented => {}
        None if known.is_none() => panic!(
            "csicodec-sys has no {ARCHIVE} for {}: its feature `portable` compiles the library with a C compiler, which takes most of a minute, or CSICODEC_LIB names a folder that has one",
            told_of("TARGET")
        ),
        None => println!(
            "cargo:warning=no {ARCHIVE} was found: set CSICODEC_LIB to its folder, or install it for pkg-config"
        ),
    }
}
