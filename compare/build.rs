//! Writes the Rust at hand below OUT_DIR: core.rs and rectclip.rs as their text stands, and counted.rs,
//! the text of rectclip.rs with calls to `crate::tally` and `crate::reach` put in.
//! The text is read from ../../shared/docs/src, or from the folder that CLIPPER2_RUST_SRC names.

use std::path::{Path, PathBuf};
use std::{env, fs};

/// One place of rectclip.rs: the text, what stands there instead, and how often it must occur.
struct Change {
    text: &'static str,
    instead: &'static str,
    times: usize,
}

/// The changes that make counted.rs of rectclip.rs. Each only adds a call; none alters what is computed.
const CHANGES: [Change; 7] = [
    // A path is walked: once in each clipper.
    Change {
        text: "self.execute_internal(path);",
        instead: "crate::tally::walk(); self.execute_internal(path);",
        times: 2,
    },
    // `add` stores a point: twice in each clipper.
    Change {
        text: "self.arena.push(op);",
        instead: "self.arena.push(op); crate::tally::point(pt);",
        times: 4,
    },
    Change {
        text: "self.start_locs.push(p);",
        instead: "self.start_locs.push(p); crate::tally::start_side();",
        times: 1,
    },
    Change {
        text: "self.start_locs.push(prev);",
        instead: "self.start_locs.push(prev); crate::tally::start_side();",
        times: 2,
    },
    // The second search of a passing segment, closed and open.
    Change {
        text: "get_intersection(&rect_as_path, prev_pt, path[i], &mut loc, &mut ip2);",
        instead: "crate::tally::second_search(get_intersection(&rect_as_path, prev_pt, path[i], &mut loc, &mut ip2));",
        times: 1,
    },
    Change {
        text: "get_intersection(&rect_as_path, prev_pt, path[i], &mut crossing_loc, &mut ip2);",
        instead: "crate::tally::second_search(get_intersection(&rect_as_path, prev_pt, path[i], &mut crossing_loc, &mut ip2));",
        times: 1,
    },
    // A pass of the outer loop of tidy_edges begins.
    Change {
        text: "while i < self.edges[cw_idx].len() {",
        instead: "while i < self.edges[cw_idx].len() { crate::tally::turn();",
        times: 1,
    },
];

fn main() {
    let out = PathBuf::from(env::var_os("OUT_DIR").expect("cargo sets OUT_DIR"));
    let folder = source_folder();
    let core = read_source(&folder, "core");
    let rectclip = read_source(&folder, "rectclip");
    fs::write(out.join("core.rs"), core).unwrap();
    let (counted, lines) = marked(&counted(&rectclip));
    fs::write(out.join("counted.rs"), counted).unwrap();
    fs::write(out.join("rectclip.rs"), rectclip).unwrap();
    // Both texts name their test files, which are not at hand.
    fs::write(out.join("core_tests.rs"), "").unwrap();
    fs::write(out.join("rectclip_tests.rs"), "").unwrap();
    fs::write(out.join("rust_at_hand.rs"), root(&out, &lines)).unwrap();
    println!("cargo:rerun-if-changed=build.rs");
    println!("cargo:rerun-if-env-changed=CLIPPER2_RUST_SRC");
}

/// The folder that holds the text.
fn source_folder() -> PathBuf {
    match env::var_os("CLIPPER2_RUST_SRC") {
        Some(folder) => PathBuf::from(folder),
        None => Path::new(&env::var_os("CARGO_MANIFEST_DIR").expect("cargo sets CARGO_MANIFEST_DIR"))
            .join("../../shared/docs/src"),
    }
}

/// The text of src/NAME.rs, under the name src--src--NAME.rs.txt or NAME.rs.
fn read_source(folder: &Path, name: &str) -> String {
    let names = [format!("src--src--{name}.rs.txt"), format!("{name}.rs")];
    let file = names.iter().map(|n| folder.join(n)).find(|f| f.is_file());
    let Some(file) = file else {
        panic!("the Rust text is not here: {} has neither {} nor {}", folder.display(), names[0], names[1]);
    };
    println!("cargo:rerun-if-changed={}", file.display());
    fs::read_to_string(&file).unwrap_or_else(|e| panic!("{}: {e}", file.display()))
}

/// rectclip.rs with every change made, each at exactly the expected number of places.
fn counted(rectclip: &str) -> String {
    CHANGES.iter().fold(rectclip.to_string(), |text, change| {
        let found = text.matches(change.text).count();
        assert!(
            found == change.times,
            "rectclip.rs is not the text that was expected: {:?} stands there {found} times, not {}",
            change.text,
            change.times
        );
        text.replace(change.text, change.instead)
    })
}

/// The text with a call at the start of each block that a condition or a loop opens, and the lines of those blocks.
fn marked(text: &str) -> (String, Vec<usize>) {
    let mut lines = Vec::new();
    let mark = |(i, line): (usize, &str)| {
        if !opens_block(line.trim()) {
            return format!("{line}\n");
        }
        lines.push(i + 1);
        format!("{line} crate::reach::block({});\n", i + 1)
    };
    let text = text.lines().enumerate().map(mark).collect();
    (text, lines)
}

/// Whether a line ends in the brace of a block that runs under a condition: a branch, a loop, an arm of a `match`.
/// `if` on the right of `let` is not looked at.
fn opens_block(line: &str) -> bool {
    let begins = ["if ", "} else ", "while ", "loop ", "for ", "None =>", "Location::", "{"];
    line.ends_with('{') && begins.iter().any(|b| line.starts_with(b))
}

/// The module root that lib.rs includes, and the lines of the marked blocks.
fn root(out: &Path, lines: &[usize]) -> String {
    let module = |name: &str| {
        let file = out.join(format!("{name}.rs"));
        format!("#[allow(dead_code, clippy::all)]\n#[path = {file:?}]\npub mod {name};\n")
    };
    let modules = ["core", "rectclip", "counted"].map(module).concat();
    format!("{modules}const MARKED_LINES: &[usize] = &{lines:?};\n")
}
