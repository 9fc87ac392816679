// Writes the library's text for this target to OUT_DIR/assembly.s, with names of this version alone: so another version
// of the crate, or the static library for C, can be in the same program, and the compiler can join their texts.
// OUT_DIR/assembly.rs hands it to rustc's assembler, or says that there is none.
use std::collections::{HashMap, HashSet};
use std::path::{Path, PathBuf};
use std::{env, fs};

/// A text, and how rustc has to read it.
struct Text {
    file: &'static str,
    is_att: bool,
}

fn main() {
    println!("cargo:rerun-if-changed=build.rs");
    println!("cargo:rerun-if-changed=src/assembly");
    let prefix = format!("noise_c_{}_", variable("CARGO_PKG_VERSION").replace('.', "_"));
    assert_eq!(
        format!("{}_", variable("CARGO_MANIFEST_LINKS")),
        prefix,
        "`links` in Cargo.toml has another version than the package"
    );
    let out = PathBuf::from(variable("OUT_DIR"));
    let rust = match find() {
        _ if env::var_os("CARGO_FEATURE_SYSTEM").is_some() => String::new(),
        Ok(text) => {
            let path = Path::new(&variable("CARGO_MANIFEST_DIR")).join("src/assembly").join(text.file);
            let assembly = fs::read_to_string(&path).unwrap_or_else(|error| panic!("{}: {error}", path.display()));
            fs::write(out.join("assembly.s"), for_target(&renamed(&assembly, &prefix)))
                .expect("OUT_DIR can be written");
            let options = if text.is_att { "raw, att_syntax" } else { "raw" };
            format!(
                "core::arch::global_asm!(include_str!(concat!(env!(\"OUT_DIR\"), \"/assembly.s\")), \
                 options({options}));\n"
            )
        }
        Err(why) => format!("compile_error!({why:?});\n"),
    };
    fs::write(out.join("assembly.rs"), rust).expect("OUT_DIR can be written");
}

fn variable(name: &str) -> String {
    env::var(name).unwrap_or_else(|error| panic!("{name}: {error}"))
}

/// The text of this target, or why there is none.
fn find() -> Result<Text, String> {
    let of = |name: &str| env::var(format!("CARGO_CFG_TARGET_{name}")).unwrap_or_default();
    let (os, arch, vendor, features) = (of("OS"), of("ARCH"), of("VENDOR"), of("FEATURE"));
    let missing = || {
        format!(
            "yulimosar has no code for the target {}: build the C library noise_c for it (packaging/build --library), \
             and link that by the feature `system`",
            variable("TARGET")
        )
    };
    if of("POINTER_WIDTH") != "64" || of("ENDIAN") != "little" {
        return Err(missing());
    }
    let elf = ["linux", "android", "freebsd", "netbsd", "openbsd", "dragonfly", "none"].contains(&os.as_str());
    let (file, needed) = match arch.as_str() {
        "x86_64" if elf => ("linux_x86_64.s", "sse2"),
        "aarch64" if elf => ("linux_aarch64.s", "neon"),
        "riscv64" if elf => ("linux_riscv64.s", ""),
        "x86_64" if os == "windows" => ("windows_x86_64.s", "sse2"),
        "x86_64" if vendor == "apple" => ("macos_x86_64.s", "sse2"),
        "aarch64" if vendor == "apple" => ("macos_arm64.s", "neon"),
        _ => return Err(missing()),
    };
    if !needed.is_empty() && !features.split(',').any(|feature| feature == needed) {
        return Err(format!("{}: the code for this processor needs {needed}, which the target lacks", missing()));
    }
    Ok(Text { file, is_att: arch == "x86_64" })
}

/// The text as this target needs it. The MSVC runtime has another name for the function that large frames call, which
/// on x86-64 does what that of mingw-w64 does. The text for macOS says so, and is right for each system of Apple.
fn for_target(assembly: &str) -> String {
    let of = |name: &str| env::var(format!("CARGO_CFG_TARGET_{name}")).unwrap_or_default();
    match (of("ENV").as_str(), of("VENDOR").as_str()) {
        ("msvc", _) => assembly.replace("___chkstk_ms", "__chkstk"),
        (_, "apple") => assembly.replacen("\t.build_version macos, 11, 0\n", "", 1),
        _ => assembly.to_owned(),
    }
}

/// The text with a prefix in each name that it defines, and in no other. Not every assembler takes a quoted name
/// everywhere: so none is left.
fn renamed(assembly: &str, prefix: &str) -> String {
    let names: HashMap<&str, String> =
        assembly.lines().filter_map(label).map(|name| (name, new_name(name, prefix))).collect();
    let distinct: HashSet<&String> = names.values().collect();
    assert_eq!(distinct.len(), names.len(), "two names would be the same");
    let mut text = String::with_capacity(assembly.len() * 5 / 4);
    let mut rest = assembly;
    while !rest.is_empty() {
        let (token, after) = rest.split_at(token_len(rest));
        text.push_str(names.get(token.trim_matches('"')).map_or(token, |name| name));
        rest = after;
    }
    text
}

fn new_name(name: &str, prefix: &str) -> String {
    let (mark, name) = name.split_at(mark_len(name));
    let bare: String = name.chars().map(|it| if is_of_name(it) { it } else { '.' }).collect();
    format!("{mark}{prefix}{bare}")
}

/// The name that a line defines.
fn label(line: &str) -> Option<&str> {
    let end = token_len(line);
    line[end..].starts_with(':').then(|| line[..end].trim_matches('"')).filter(|name| !name.is_empty())
}

fn is_of_name(it: char) -> bool {
    it.is_ascii_alphanumeric() || "_.$".contains(it)
}

/// How many bytes the text's first token has: a name, a text between quotation marks, or any other character.
fn token_len(text: &str) -> usize {
    match text.chars().next() {
        Some('"') => text[1..].find(['"', '\n']).map_or(text.len(), |end| end + 2),
        Some(first) if is_of_name(first) => text.find(|it| !is_of_name(it)).unwrap_or(text.len()),
        Some(first) => first.len_utf8(),
        None => 0,
    }
}

/// How many bytes stand before a name for the assembler or the linker: `.L`, `L` and `l` make it local, and Mach-O has
/// `_` before each name of C.
fn mark_len(name: &str) -> usize {
    let marks: &[&str] = match env::var("CARGO_CFG_TARGET_VENDOR").as_deref() {
        Ok("apple") => &["L", "l", "_"],
        _ => &[".L"],
    };
    marks.iter().find(|mark| name.starts_with(**mark)).map_or(0, |mark| mark.len())
}
