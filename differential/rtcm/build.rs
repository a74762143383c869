//! Makes a crate out of the files of rtcm-rs where they lie, in the folder that RTCM_RS_SOURCE names.
//!
//! The files are built unchanged, each as the module that it is in rtcm-rs. Of four files only a part can be built, since
//! the rest needs files that were not supplied: of lib.rs everything from `next_msg_frame` on, of msg/mod.rs the lines
//! that are named below, of df/mod.rs the macro `df!`, and of df/dfs.rs the two lengths of message 1001. Those parts are
//! written to OUT_DIR, never into this folder.
use std::path::{Path, PathBuf};
use std::{env, fs};

/// Where the source lies unless RTCM_RS_SOURCE says otherwise, from the root of the repository.
const DEFAULT_SOURCE: &str = "../shared/docs/src";

/// The line of lib.rs from which everything is taken.
const FIRST_LINE_OF_LIB: &str = "pub fn next_msg_frame(";

/// The beginnings of the lines that are taken from msg/mod.rs.
const LINES_OF_MSG: [&str; 2] = ["pub use msm_mappings::", "pub const SAT_CAP_1059:"];

/// Names of features that the source asks about; only the two messages are switched on.
const FEATURES: &str = r#"cfg(feature, values(any()))"#;
const MESSAGES: [&str; 2] = ["msg1059", "msg1230"];

/// The lengths of message 1001: pseudorange, and phase range less pseudorange.
const LENGTHS: [&str; 2] = ["df011", "df012_18_42_48"];

fn main() {
    let source = source_folder();
    let out = PathBuf::from(env::var_os("OUT_DIR").expect("cargo sets OUT_DIR"));
    let lib = part_of_lib(&text(&source.join("lib.rs")));
    let msg = lines_of_msg(&text(&source.join("msg/mod.rs")));
    let lengths = lengths(
        &text(&source.join("df/mod.rs")),
        &text(&source.join("df/dfs.rs")),
    );
    fs::write(out.join("scan.rs"), lib).expect("OUT_DIR can be written");
    fs::write(out.join("lengths.rs"), lengths).expect("OUT_DIR can be written");
    fs::write(out.join("rtcm.rs"), tree(&source, &msg)).expect("OUT_DIR can be written");

    println!("cargo::rerun-if-env-changed=RTCM_RS_SOURCE");
    println!("cargo::rerun-if-changed={}", source.display());
    println!("cargo::rustc-check-cfg={FEATURES}");
    for message in MESSAGES {
        println!("cargo::rustc-cfg=feature=\"{message}\"");
    }
}

/// The folder that holds lib.rs: the named one, or `src` in it.
fn source_folder() -> PathBuf {
    let package = PathBuf::from(env::var_os("CARGO_MANIFEST_DIR").expect("cargo sets it"));
    let root = package.join("../../..");
    let named = match env::var_os("RTCM_RS_SOURCE") {
        Some(folder) => PathBuf::from(folder),
        None => root.join(DEFAULT_SOURCE),
    };
    let inner = named.join("src");
    let folder = if inner.join("lib.rs").is_file() {
        inner
    } else {
        named
    };
    match folder.canonicalize() {
        Ok(folder) if folder.join("lib.rs").is_file() => folder,
        _ => panic!(
            "no source of rtcm-rs in {} (set RTCM_RS_SOURCE)",
            folder.display()
        ),
    }
}

fn text(file: &Path) -> String {
    println!("cargo::rerun-if-changed={}", file.display());
    fs::read_to_string(file).unwrap_or_else(|why| panic!("{}: {why}", file.display()))
}

/// `next_msg_frame` and `MsgFrameIter`, which end lib.rs, as they stand there.
fn part_of_lib(lib: &str) -> String {
    let lines = lib
        .lines()
        .skip_while(|line| !line.starts_with(FIRST_LINE_OF_LIB));
    let part: Vec<&str> = lines.collect();
    assert!(
        !part.is_empty(),
        "lib.rs has no line that begins with {FIRST_LINE_OF_LIB}"
    );
    part.join("\n") + "\n"
}

/// The signal types' names and the capacity of the 1059 block, as they stand in msg/mod.rs.
fn lines_of_msg(msg: &str) -> String {
    let wanted = |line: &&str| LINES_OF_MSG.iter().any(|start| line.starts_with(start));
    let part: Vec<&str> = msg.lines().filter(wanted).collect();
    assert!(
        part.len() == 8,
        "msg/mod.rs has {} of the 8 lines that are taken from it",
        part.len()
    );
    part.join("\n") + "\n"
}

/// The macro that makes a field's module, and what it is given for the two lengths, as they stand in the source.
fn lengths(macros: &str, fields: &str) -> String {
    let part = |text: &str, start: &str, end: &str| {
        let from = text.find(start).unwrap_or_else(|| panic!("no {start:?}"));
        let to = text[from..].find(end).expect("its end") + from + end.len();
        text[from..to].to_string() + "\n"
    };
    let mut module = part(macros, "macro_rules! df {", "\n}\n");
    for id in LENGTHS {
        module += &part(fields, &format!("df!(\n    id: {id},"), "\n);\n");
    }
    module
}

/// The crate's modules, each over its own file. Warnings about the source are not this program's.
fn tree(source: &Path, lines_of_msg: &str) -> String {
    let module = |file: &str| {
        let (path, name) = (
            source.join(file),
            Path::new(file).file_stem().expect("a file name"),
        );
        let name = name.to_str().expect("a plain name");
        assert!(path.is_file(), "{} is missing", path.display());
        format!("#[path = {:?}] #[allow(warnings)] pub mod {name};\n", path)
    };
    let mut tree = String::new();
    tree += &module("rtcm_error.rs");
    tree += &module("message_frame.rs");
    tree += "pub mod df {\n";
    tree += &module("df/bit_value.rs");
    tree += &module("df/parser.rs");
    tree += &module("df/assembler.rs");
    tree += "pub mod dfs {\n";
    tree += &module("df/dfs/df_msg1059_biases.rs");
    tree += &module("df/dfs/df_msg1230_biases.rs");
    tree += "}\n}\npub mod util {\n";
    tree += &module("util/data_vec.rs");
    tree += "pub use data_vec::DataVec;\n}\npub mod msg {\n";
    tree += &module("msg/msm_mappings.rs");
    tree += &module("msg/message.rs");
    tree += lines_of_msg;
    tree += "pub use crate::raw_message::{msg1059, msg1230};\n}\n";
    tree += "#[allow(warnings)] mod lengths {\n";
    tree += "include!(concat!(env!(\"OUT_DIR\"), \"/lengths.rs\"));\n}\n";
    tree += "#[allow(warnings)] mod scan_of_lib {\n";
    tree += "use crate::{message_frame::MessageFrame, rtcm_error};\n";
    tree += "include!(concat!(env!(\"OUT_DIR\"), \"/scan.rs\"));\n}\n";
    tree
}
