//! Finds the library and links it.
//!
//! The library is searched for in the folder that `VT100_LIB_DIR` names. If that variable is not
//! set, it is searched for in the folder of this package for the target's processor and system,
//! such as `lib/x86_64-linux`. If this package has no archive for the target, or if the feature `portable` is
//! enabled, the source in the folder `portable` is compiled, if this package has it. Otherwise, if
//! the target is the host, pkg-config is asked. If a folder has both the archive and the shared
//! object, the archive is linked, so that a program needs no other files at run time.

use std::env;
use std::path::{Path, PathBuf};
use std::process::{exit, Command};

const ARCHIVE: &str = "libvt100.a";
const SHARED: &str = "libvt100.so";

fn main() {
    for name in ["VT100_LIB_DIR", "PKG_CONFIG_PATH", "PKG_CONFIG_LIBDIR"] {
        println!("cargo:rerun-if-env-changed={name}");
    }
    if let Err(error) = library_dir().and_then(|folder| link(&folder)) {
        eprintln!("vt100: {error}");
        exit(1);
    }
}

/// Returns the folder in which to search for the library.
///
/// # Errors
///
/// Returns a message if `VT100_LIB_DIR` is not an absolute path, or if it is not set and there is no
/// library for the target, or its source cannot be compiled.
fn library_dir() -> Result<PathBuf, String> {
    if let Some(value) = env::var_os("VT100_LIB_DIR") {
        return checked(value.into());
    }
    let is_forced = env::var_os("CARGO_FEATURE_PORTABLE").is_some();
    if let Some(folder) = packaged_dir().filter(|_| !is_forced) {
        return Ok(folder);
    }
    let source = folder_of("CARGO_MANIFEST_DIR")?.join("portable");
    if source.join("vt100.c").is_file() {
        return compile(&source);
    }
    if is_forced {
        return Err(
            "the feature portable needs the source, which this package does not have".into(),
        );
    }
    pkg_config_dir().ok_or_else(|| {
        let found = if is_native() {
            ", or have pkg-config find vt100"
        } else {
            ""
        };
        let target = target();
        format!(
            "no library for the target {target}: name the folder of one in VT100_LIB_DIR{found}"
        )
    })
}

/// Returns `folder`, the value of `VT100_LIB_DIR`, if it is an absolute path, otherwise a message.
fn checked(folder: PathBuf) -> Result<PathBuf, String> {
    let wanted = format!("the absolute path of the folder that has {ARCHIVE} or {SHARED}");
    if folder.as_os_str().is_empty() {
        return Err(format!(
            "VT100_LIB_DIR is empty: set it to {wanted}, or unset it"
        ));
    }
    if folder.is_relative() {
        let folder = folder.display();
        return Err(format!(
            "VT100_LIB_DIR is the relative path {folder}: it must be {wanted}"
        ));
    }
    Ok(folder)
}

/// Returns the folder that an environment variable names, which cargo sets.
fn folder_of(name: &str) -> Result<PathBuf, String> {
    env::var_os(name)
        .map(Into::into)
        .ok_or_else(|| format!("{name} is not set"))
}

/// Returns the name of the target.
fn target() -> String {
    env::var("TARGET").unwrap_or_default()
}

/// Returns whether the target has a property, such as `("OS", "linux")`.
fn is_target(name: &str, value: &str) -> bool {
    env::var(format!("CARGO_CFG_TARGET_{name}")).as_deref() == Ok(value)
}

/// Returns the folder of the archive for this target that a prepared package contains, if there is
/// one. The archives are for 64-bit, little-endian processors and the GNU environment: glibc on
/// Linux, MinGW on Windows. That for Linux on x86-64 also links with musl.
fn packaged_dir() -> Option<PathBuf> {
    let folder = format!(
        "{}-{}",
        env::var("CARGO_CFG_TARGET_ARCH").ok()?,
        env::var("CARGO_CFG_TARGET_OS").ok()?
    );
    let is_supported = is_target("POINTER_WIDTH", "64")
        && is_target("ENDIAN", "little")
        && (is_target("ENV", "gnu") || is_target("ENV", "musl") && folder == "x86_64-linux");
    let folder = folder_of("CARGO_MANIFEST_DIR")
        .ok()?
        .join("lib")
        .join(folder);
    (is_supported && folder.join(ARCHIVE).is_file()).then_some(folder)
}

/// Returns the words of the environment variable for a tool that compiles for the target: `CC`, for
/// example, from `CC_x86_64-unknown-linux-musl`, `CC_x86_64_unknown_linux_musl`, `TARGET_CC` or `CC`.
fn tool(name: &str) -> Option<Vec<String>> {
    let target = target();
    let names = [
        format!("{name}_{target}"),
        format!("{name}_{}", target.replace('-', "_")),
        format!("TARGET_{name}"),
        name.into(),
    ];
    for name in &names {
        println!("cargo:rerun-if-env-changed={name}");
    }
    let value = names.iter().find_map(|name| env::var(name).ok())?;
    let words: Vec<String> = value.split_whitespace().map(Into::into).collect();
    (!words.is_empty()).then_some(words)
}

/// Returns the command that compiles C for the target. Without a variable, it is `cc` for the host,
/// and for any other target the linker that cargo has been given for it, if that is a compiler.
///
/// # Errors
///
/// Returns a message if there is none for the target.
fn compiler() -> Result<Vec<String>, String> {
    if let Some(words) = tool("CC") {
        return Ok(words);
    }
    if is_native() {
        return Ok(vec!["cc".into()]);
    }
    env::var("RUSTC_LINKER")
        .ok()
        .filter(|linker| linker.ends_with("cc") || linker.ends_with("clang"))
        .map(|linker| vec![linker])
        .ok_or_else(|| {
            let target = target();
            let name = target.replace('-', "_");
            format!("no C compiler for the target {target}: name one in CC_{name}")
        })
}

/// Runs a command, and returns what it writes to standard output.
///
/// # Errors
///
/// Returns a message if the command cannot be run or fails.
fn run(command: &[String], arguments: &[&str]) -> Result<String, String> {
    let (program, first) = command.split_first().ok_or("an empty command")?;
    let output = Command::new(program)
        .args(first)
        .args(arguments)
        .output()
        .map_err(|error| format!("{program} cannot be run: {error}"))?;
    if !output.status.success() {
        let text = String::from_utf8_lossy(&output.stderr);
        return Err(format!("{program} failed: {}\n{text}", output.status));
    }
    Ok(String::from_utf8_lossy(&output.stdout).trim().to_owned())
}

/// Returns source that compiles only for the target, as far as the preprocessor can say.
fn target_check() -> String {
    let width = env::var("CARGO_CFG_TARGET_POINTER_WIDTH").unwrap_or_default();
    let known = [
        ("x86_64", "__x86_64__"),
        ("x86", "__i386__"),
        ("aarch64", "__aarch64__"),
        ("arm", "__arm__"),
        ("riscv64", "__riscv"),
        ("s390x", "__s390x__"),
        ("powerpc64", "__powerpc64__"),
    ];
    let processor = known.iter().find(|(arch, _)| is_target("ARCH", arch));
    let systems = [
        ("linux", "__linux__"),
        ("windows", "_WIN32"),
        ("macos", "__APPLE__"),
    ];
    let system = systems.iter().find(|(os, _)| is_target("OS", os));
    let conditions = [processor, system].into_iter().flatten();
    let mut text = format!("typedef char pointer_width[sizeof(void *) * 8 == {width} ? 1 : -1];\n");
    for (_, name) in conditions {
        text += &format!("#ifndef {name}\n#error \"{name} is not defined\"\n#endif\n");
    }
    text
}

/// Compiles a file to an object file next to it or in `out`.
fn compile_file(compiler: &[String], file: &Path, out: &Path) -> Result<PathBuf, String> {
    let object = out
        .join(file.file_name().unwrap_or_default())
        .with_extension("o");
    // Windows has no other code than position-independent one, and clang refuses the option there.
    let position = env::var_os("CARGO_CFG_UNIX").map(|_| "-fPIC");
    let (file, name) = (file.display().to_string(), object.display().to_string());
    let mut words = vec!["-O2", "-c", "-o", &name, &file];
    words.extend(position);
    run(compiler, &words)?;
    Ok(object)
}

/// Compiles the source in a folder, and returns the folder of the archive.
///
/// # Errors
///
/// Returns a message if there is no compiler for the target, or if it fails.
fn compile(source: &Path) -> Result<PathBuf, String> {
    let (out, compiler) = (folder_of("OUT_DIR")?, compiler()?);
    let check = out.join("target_check.c");
    std::fs::write(&check, target_check()).map_err(|error| error.to_string())?;
    compile_file(&compiler, &check, &out).map_err(|error| {
        let target = target();
        format!("no C compiler for the target {target}: {error}")
    })?;
    let mut objects = Vec::new();
    for name in ["vt100.c", "heap.c"] {
        let file = source.join(name);
        println!("cargo:rerun-if-changed={}", file.display());
        objects.push(compile_file(&compiler, &file, &out)?);
    }
    let archiver = match tool("AR") {
        Some(words) => words,
        None => vec![run(&compiler, &["-print-prog-name=ar"])?],
    };
    let archive = out.join(ARCHIVE);
    let _ = std::fs::remove_file(&archive);
    let words: Vec<String> = [archive]
        .iter()
        .chain(&objects)
        .map(|path| path.display().to_string())
        .collect();
    let mut arguments = vec!["crs"];
    arguments.extend(words.iter().map(String::as_str));
    run(&archiver, &arguments)?;
    Ok(out)
}

/// Returns whether the target is the host.
fn is_native() -> bool {
    env::var_os("TARGET") == env::var_os("HOST")
}

/// Returns the folder of the library according to pkg-config, which knows only the libraries of the
/// host.
fn pkg_config_dir() -> Option<PathBuf> {
    if !is_native() {
        return None;
    }
    let output = Command::new("pkg-config")
        .args(["--variable=libdir", "vt100"])
        .output()
        .ok()?;
    let folder = String::from_utf8_lossy(&output.stdout).trim().to_owned();
    output.status.success().then_some(folder.into())
}

/// Links the archive in a folder, or the shared object if there is no archive.
///
/// # Errors
///
/// Returns a message if the folder has neither.
fn link(folder: &Path) -> Result<(), String> {
    let (kind, name) = [("static", ARCHIVE), ("dylib", SHARED)]
        .into_iter()
        .find(|(_, name)| folder.join(name).is_file())
        .ok_or_else(|| format!("{} has neither {ARCHIVE} nor {SHARED}", folder.display()))?;
    println!("cargo:rerun-if-changed={}", folder.join(name).display());
    println!("cargo:rustc-link-search=native={}", folder.display());
    println!("cargo:rustc-link-lib={kind}=vt100");
    Ok(())
}
