//! Finds the proved library: the `libbcs.a` that came with this crate for the target; or else that in the folder which `BCS_LIB`
//! names; or else it compiles the C that came with this crate, as it always does if `BCS_FROM_C` is set; or else asks
//! `pkg-config`.
use std::env;
use std::path::{Path, PathBuf};
use std::process::Command;

const WHAT_TO_DO: [&str; 6] = [
    "The proved library libbcs.a was not found. Do one of these:",
    "  - take the package bcs-proved of the bcs repository, which has it (tools/packages.py makes it);",
    "  - install it by ./install or bindings/c/build.sh of that repository, and set BCS_LIB to the folder with libbcs.a;",
    "  - or install it so that `pkg-config bcs` finds bcs.pc: for a prefix of your own set PKG_CONFIG_PATH to",
    "    its folder lib/pkgconfig.",
    "  - on a system with POSIX the package compiles the library from C, by the compiler that the variable CC names, or cc.",
];

fn main() {
    for name in ["BCS_LIB", "BCS_FROM_C", "PKG_CONFIG", "PKG_CONFIG_PATH"] {
        println!("cargo::rerun-if-env-changed={name}");
    }
    match find_library() {
        Ok(folder) => link(&folder),
        Err(reason) => {
            println!("cargo::error={reason}");
            for line in WHAT_TO_DO {
                println!("cargo::error={line}");
            }
        }
    }
}

/// The folder with the library, or why it isn't there.
fn find_library() -> Result<PathBuf, String> {
    let own = own_folder();
    let source = Path::new(&of_cargo("CARGO_MANIFEST_DIR")).join("c/bcs_library.c");
    if env::var_os("BCS_FROM_C").is_some() {
        return compile(&source);
    }
    if own.join("libbcs.a").is_file() {
        return Ok(own);
    }
    let folder = match env::var_os("BCS_LIB") {
        Some(folder) => PathBuf::from(folder),
        None if source.is_file() && of_cargo("CARGO_CFG_TARGET_FAMILY") == "unix" => compile(&source)?,
        None => ask_pkg_config()?,
    };
    // The folder is in cargo's instructions, and a relative one would be looked for elsewhere at link time.
    let folder = folder.canonicalize().map_err(|error| format!("{}: {error}", folder.display()))?;
    if folder.join("libbcs.a").is_file() {
        Ok(folder)
    } else {
        Err(format!("There is no libbcs.a in {}.", folder.display()))
    }
}

/// Where a package of this crate has the library for the machine that is built for, as lib/x86_64-linux.
fn own_folder() -> PathBuf {
    let machine = format!("{}-{}", of_cargo("CARGO_CFG_TARGET_ARCH"), of_cargo("CARGO_CFG_TARGET_OS"));
    Path::new(&of_cargo("CARGO_MANIFEST_DIR")).join("lib").join(machine)
}

fn of_cargo(name: &str) -> String {
    env::var(name).unwrap_or_default()
}

/// Compiles the C into libbcs.a, in cargo's folder for what is built, with the flags of the variable `CFLAGS` last. It takes a
/// minute or so.
fn compile(source: &Path) -> Result<PathBuf, String> {
    println!("cargo::rerun-if-changed={}", source.display());
    let folder = PathBuf::from(of_cargo("OUT_DIR"));
    let (object, library) = (folder.join("bcs_library.o"), folder.join("libbcs.a"));
    let mut compiler = tool("CC", "gcc", "cc");
    compiler.args(["-std=gnu11", "-O2", "-fPIC", "-w", "-c"]);
    if of_cargo("CARGO_CFG_TARGET_VENDOR") == "apple" {
        let machine = of_cargo("CARGO_CFG_TARGET_ARCH");
        compiler.args(["-arch", if machine == "aarch64" { "arm64" } else { &machine }]);
    }
    println!("cargo::rerun-if-env-changed=CFLAGS");
    compiler.args(of_cargo("CFLAGS").split_whitespace());
    run(compiler.arg(source).arg("-o").arg(&object))?;
    // (`ar` would add to an older archive)
    let _ = std::fs::remove_file(&library);
    run(tool("AR", "ar", "ar").arg("crs").arg(&library).arg(&object))?;
    Ok(folder)
}

/// A tool by the variables that cargo's users set: `CC_aarch64_unknown_linux_gnu` or `CC`; or else by its name, which has the
/// target in front if another machine is built for, as Debian and others name their compilers.
fn tool(variable: &str, cross_name: &str, name: &str) -> Command {
    let target = of_cargo("TARGET");
    let own = format!("{variable}_{}", target.replace('-', "_"));
    println!("cargo::rerun-if-env-changed={own}");
    println!("cargo::rerun-if-env-changed={variable}");
    let is_cross = target != of_cargo("HOST") && of_cargo("CARGO_CFG_TARGET_VENDOR") != "apple";
    let machine = target.replace("-unknown-", "-").replace("riscv64gc-", "riscv64-");
    let default = if is_cross { format!("{machine}-{cross_name}") } else { name.to_owned() };
    let words = env::var(own).or_else(|_| env::var(variable)).unwrap_or(default);
    let mut words = words.split_whitespace();
    let mut command = Command::new(words.next().unwrap_or(name));
    command.args(words);
    command
}

fn run(command: &mut Command) -> Result<(), String> {
    let output = command.output().map_err(|error| format!("{command:?} can't be run: {error}."))?;
    if output.status.success() {
        return Ok(());
    }
    let told = String::from_utf8_lossy(&output.stderr);
    Err(format!("{command:?} failed: {}", told.lines().find(|line| line.contains("error")).unwrap_or_default()))
}

fn ask_pkg_config() -> Result<PathBuf, String> {
    let program = PathBuf::from(env::var_os("PKG_CONFIG").unwrap_or("pkg-config".into()));
    let output = Command::new(&program)
        .args(["--variable=libdir", "bcs"])
        .output()
        .map_err(|error| format!("BCS_LIB isn't set, and {} can't be run: {error}.", program.display()))?;
    let folder = String::from_utf8_lossy(&output.stdout).trim().to_owned();
    if output.status.success() && !folder.is_empty() {
        Ok(folder.into())
    } else {
        Err("BCS_LIB isn't set, and pkg-config knows no bcs.".into())
    }
}

fn link(folder: &Path) {
    println!("cargo::rerun-if-changed={}", folder.join("libbcs.a").display());
    println!("cargo::rustc-link-search=native={}", folder.display());
    println!("cargo::rustc-link-lib=static=bcs");
}
