//! Compiles `bootswap.c`, or with the feature `prebuilt` names the folder of the archive to link.
//!
//! The environment says how. `CC`, `CFLAGS` and `AR` may have the target at their end, as
//! `CC_thumbv7em_none_eabi`.
//!
//! - `BOOTSWAP_C`: the folder that `bindings/build --c` left. By default `c` beside this file, or
//!   `out/c` of the clone that this crate is in.
//! - `BOOTSWAP_LIB`: only with `prebuilt`, the folder of `libbootswap.a`. By default `out` of the
//!   clone.
//! - `CC`: the C compiler, gcc or clang. By default gcc for the bare targets below, and `cc` for
//!   those of this machine's architecture. For others it has to be named.
//! - `CFLAGS`: more arguments for it, separated by spaces. They follow those of this file.
//! - `AR`: the archiver. By default `ar`, or that of the compiler.

use std::env;
use std::path::{Path, PathBuf};
use std::process::{exit, Command};

/// Targets without an operating system: what their names begin with, the prefix of the compiler's
/// programs, and its arguments. The first one that fits counts. Tables of jumps in Thumb-1 would
/// call helpers of libgcc, which Rust doesn't have.
const BARE: &[(&str, &str, &str)] = &[
    ("thumbv6m-", "arm-none-eabi-", "-mthumb -march=armv6s-m -mfloat-abi=soft -fno-jump-tables"),
    ("thumbv7m-", "arm-none-eabi-", "-mthumb -march=armv7-m -mfloat-abi=soft"),
    ("thumbv7em-none-eabihf", "arm-none-eabi-", "-mthumb -march=armv7e-m+fp -mfloat-abi=hard"),
    ("thumbv7em-", "arm-none-eabi-", "-mthumb -march=armv7e-m -mfloat-abi=soft"),
    (
        "thumbv8m.base-",
        "arm-none-eabi-",
        "-mthumb -march=armv8-m.base -mfloat-abi=soft -fno-jump-tables",
    ),
    (
        "thumbv8m.main-none-eabihf",
        "arm-none-eabi-",
        "-mthumb -march=armv8-m.main+fp -mfloat-abi=hard",
    ),
    ("thumbv8m.main-", "arm-none-eabi-", "-mthumb -march=armv8-m.main -mfloat-abi=soft"),
    ("riscv32imac-", "riscv64-unknown-elf-", "-march=rv32imac -mabi=ilp32"),
    ("riscv32imc-", "riscv64-unknown-elf-", "-march=rv32imc -mabi=ilp32"),
];

/// What `bootswap.c` calls, for a compiler that comes without a C library.
const STRING_H: &str = "#include <stddef.h>
void *memcpy(void *to, const void *from, size_t length);
void *memmove(void *to, const void *from, size_t length);
void *memset(void *to, int byte, size_t length);
";

fn main() {
    println!("cargo:rerun-if-changed=build.rs");
    let crate_folder = PathBuf::from(required("CARGO_MANIFEST_DIR"));
    let headers = headers(&crate_folder);
    println!("cargo:rustc-env=BOOTSWAP_HEADERS={}", headers.display());
    if env::var_os("CARGO_FEATURE_PREBUILT").is_some() {
        let folder =
            named("BOOTSWAP_LIB").map_or_else(|| crate_folder.join("../../out"), PathBuf::from);
        must_have(&folder.join("libbootswap.a"), "BOOTSWAP_LIB names the folder of the archive");
        println!("cargo:rustc-link-search=native={}", folder.display());
    } else {
        let folder = sources(&crate_folder);
        let out = PathBuf::from(required("OUT_DIR"));
        compile(&folder, &out);
        println!("cargo:rustc-link-search=native={}", out.display());
    }
    println!("cargo:rustc-link-lib=static=bootswap");
}

/// Returns the folder of the headers, which the tests read.
fn headers(crate_folder: &Path) -> PathBuf {
    match c_folder(crate_folder) {
        folder if folder.exists() => folder,
        _ => crate_folder.join("../../include"),
    }
}

/// Returns the folder that `bindings/build --c` left.
fn c_folder(crate_folder: &Path) -> PathBuf {
    let own = crate_folder.join("c");
    match named("BOOTSWAP_C") {
        Some(folder) => PathBuf::from(folder),
        None if own.exists() => own,
        None => crate_folder.join("../../out/c"),
    }
}

/// Returns the folder of `bootswap.c`.
fn sources(crate_folder: &Path) -> PathBuf {
    let folder = c_folder(crate_folder);
    let file = folder.join("bootswap.c");
    must_have(&file, "`bindings/build --c` makes it, and BOOTSWAP_C names its folder");
    println!("cargo:rerun-if-changed={}", folder.display());
    folder
}

/// Compiles `bootswap.c` to an archive in the folder `out`.
fn compile(folder: &Path, out: &Path) {
    let target = required("TARGET");
    let bare = BARE.iter().find(|it| target.starts_with(it.0));
    let prefix = bare.map_or("", |it| it.1);
    let compiler = of_target("CC").unwrap_or_else(|| match bare {
        Some(_) => format!("{}gcc", prefix),
        None => compiler_here(&target),
    });
    let (file, object) = (folder.join("bootswap.c"), out.join("bootswap.o"));
    let mut command = Command::new(&compiler);
    command.args(arguments(out)).args(bare.map_or("", |it| it.2).split_whitespace());
    if bare.is_some() && compiler.contains("clang") {
        command.arg(format!("--target={}", target_of_clang(&target)));
    }
    command.args(of_target("CFLAGS").unwrap_or_default().split_whitespace());
    run(command.arg("-c").arg(file).arg("-o").arg(&object));
    let archiver = of_target("AR").unwrap_or_else(|| format!("{}ar", prefix));
    run(Command::new(archiver).arg("crs").arg(out.join("libbootswap.a")).arg(&object));
}

/// Returns the compiler of this machine, if it compiles for the architecture of the target.
fn compiler_here(target: &str) -> String {
    let architecture = |it: &str| it.split('-').next().map(String::from);
    if architecture(target) != architecture(&required("HOST")) {
        let name = target.replace(['-', '.'], "_");
        stop(&format!("no C compiler is known for {}: name one in CC_{}", target, name));
    }
    String::from("cc")
}

/// Returns a bare target as clang names it, which gets the extensions of RISC-V by `-march`.
fn target_of_clang(target: &str) -> String {
    match target.split_once('-') {
        Some((architecture, rest)) if architecture.starts_with("riscv32") => {
            format!("riscv32-{}", rest)
        }
        _ => String::from(target),
    }
}

/// Returns the arguments of the compiler for all targets, and for those without an operating
/// system. The calls of simulators are left out.
fn arguments(out: &Path) -> Vec<String> {
    let mut words = vec![String::from("-std=c11"), optimization()];
    words.extend(["-ffunction-sections", "-fdata-sections"].map(String::from));
    words.push(String::from("-DBOOTSWAP_WITHOUT_SIMULATION"));
    if required("CARGO_CFG_TARGET_OS") == "none" {
        write(&out.join("string.h"), STRING_H);
        words.extend(["-ffreestanding", "-idirafter"].map(String::from));
        words.push(out.display().to_string());
    } else {
        words.push(String::from("-fPIC"));
    }
    words
}

/// Returns how the file is optimized: as the crate is, but always a little. Without it the calls
/// take much more stack.
fn optimization() -> String {
    match required("OPT_LEVEL").as_str() {
        "0" => String::from("-O1"),
        "z" => String::from("-Os"),
        level => format!("-O{}", level),
    }
}

/// Returns a variable of the environment that is for this target, or for all.
fn of_target(name: &str) -> Option<String> {
    let target = required("TARGET");
    let own = [target.clone(), target.replace(['-', '.'], "_")];
    own.iter().find_map(|it| named(&format!("{}_{}", name, it))).or_else(|| named(name))
}

/// Returns a variable of the environment. If it changes, this program runs again.
fn named(name: &str) -> Option<String> {
    println!("cargo:rerun-if-env-changed={}", name);
    env::var(name).ok().filter(|it| !it.is_empty())
}

/// Returns a variable that cargo sets.
fn required(name: &str) -> String {
    env::var(name).unwrap_or_else(|_| stop(&format!("cargo sets no {}", name)))
}

fn must_have(file: &Path, why: &str) {
    if !file.exists() {
        stop(&format!("there is no {}: {}", file.display(), why));
    }
}

fn write(file: &Path, text: &str) {
    if let Err(error) = std::fs::write(file, text) {
        stop(&format!("{}: {}", file.display(), error));
    }
}

fn run(command: &mut Command) {
    match command.status() {
        Ok(status) if status.success() => {}
        Ok(status) => stop(&format!("{:?} ended with {}", command, status)),
        Err(error) => {
            stop(&format!("{:?} didn't run: {}. CC names the C compiler", command, error))
        }
    }
}

/// Ends this program, and so the build.
fn stop(why: &str) -> ! {
    eprintln!("bootswap: {}", why);
    exit(1)
}
