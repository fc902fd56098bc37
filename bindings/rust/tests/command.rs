//! The command: what it prints, and its status.

use std::fs;
use std::io::{Read, Write};
use std::path::{Path, PathBuf};
use std::process::{Command, Stdio};

/// A folder for a test, which is removed after it.
struct Folder(PathBuf);

impl std::ops::Deref for Folder {
    type Target = Path;

    fn deref(&self) -> &Path {
        &self.0
    }
}

impl Drop for Folder {
    fn drop(&mut self) {
        let _ = fs::remove_dir_all(&self.0);
    }
}

fn folder(name: &str) -> Folder {
    let folder = std::env::temp_dir().join(format!("tulfjak-{}-{name}", std::process::id()));
    fs::create_dir_all(&folder).expect("a folder");
    Folder(folder)
}

/// The command in a folder.
fn command(folder: &Path, arguments: &[&str]) -> Command {
    let mut command = Command::new(env!("CARGO_BIN_EXE_tulfjak"));
    command.current_dir(folder).args(arguments).env_remove("NO_COLOR").stdin(Stdio::null());
    command
}

/// The status of the command, and what it prints on standard output and on standard error.
fn ran(folder: &Path, arguments: &[&str]) -> (i32, String, String) {
    let output = command(folder, arguments).output().expect("a command");
    let text = |bytes| String::from_utf8(bytes).expect("text");
    (output.status.code().expect("a status"), text(output.stdout), text(output.stderr))
}

/// The same with a standard input.
fn fed(input: &[u8], arguments: &[&str]) -> (i32, String, String) {
    let mut child =
        command(Path::new("."), arguments).stdin(Stdio::piped()).stdout(Stdio::piped()).stderr(Stdio::piped()).spawn().expect("a command");
    child.stdin.take().expect("a pipe").write_all(input).expect("written");
    let output = child.wait_with_output().expect("an end");
    let text = |bytes| String::from_utf8(bytes).expect("text");
    (output.status.code().expect("a status"), text(output.stdout), text(output.stderr))
}

/// A file of the repository.
fn kept(path: &str) -> String {
    format!("{}/../../{path}", env!("CARGO_MANIFEST_DIR"))
}

const REFUSED: &str = "package demo:shop;\ninterface shop {\n  record customer { address: adress }\n}\n";

#[test]
fn a_package_prints_nothing() {
    let folder = folder("nothing");
    fs::write(folder.join("a.wit"), "package a:b;").expect("a file");
    for path in ["a.wit", "."] {
        assert_eq!(ran(&folder, &[path]), (0, String::new(), String::new()));
    }
    assert_eq!(fed(b"package a:b;", &["-"]), (0, String::new(), String::new()));
}

#[test]
fn a_refusal() {
    let folder = folder("refusal");
    fs::write(folder.join("shop.wit"), REFUSED).expect("a file");
    let long = "error[E15]: type `adress` does not exist
 --> shop.wit:3:30
  |
3 |   record customer { address: adress }
  |                              ^^^^^^
";
    let short = "shop.wit:3:30: error[E15]: type `adress` does not exist\n";
    let json = "{\"error\":{\"rule\":15,\"path\":\"shop.wit\",\"start\":65,\"end\":71,\"message\":\"type `adress` does not exist\"}}\n";
    assert_eq!(ran(&folder, &["shop.wit"]), (1, String::new(), long.into()));
    assert_eq!(ran(&folder, &["--listing", "shop.wit"]), (1, String::new(), long.into()));
    assert_eq!(ran(&folder, &["--short", "--", "shop.wit"]), (1, String::new(), short.into()));
    assert_eq!(ran(&folder, &["shop.wit", "--json"]), (1, json.into(), String::new()));
    assert_eq!(fed(REFUSED.as_bytes(), &["-", "--short"]), (1, String::new(), short.replace("shop.wit", "stdin.wit")));
}

#[test]
fn colors_are_asked_for() {
    let folder = folder("colors");
    fs::write(folder.join("shop.wit"), REFUSED).expect("a file");
    let colored = |arguments: &[&str]| ran(&folder, arguments).2.contains('\x1b');
    assert!(colored(&["shop.wit", "--color", "always"]) && colored(&["--color=always", "shop.wit"]));
    assert!(!colored(&["shop.wit"]) && !colored(&["--color=auto", "shop.wit"]) && !colored(&["--color=never", "shop.wit"]));
    assert!(!colored(&["--color=always", "--short", "shop.wit"]));
}

#[test]
fn files_are_one_package() {
    let library = kept("examples/library");
    let listing = fs::read_to_string(kept("examples/library.listing")).expect("a listing");
    assert_eq!(ran(Path::new(&library), &["--listing", "."]), (0, listing.clone(), String::new()));
    let names = fs::read_dir(&library).expect("a folder").map(|file| file.expect("a file").file_name().into_string().expect("a name"));
    let mut names: Vec<String> = names.filter(|name| name.ends_with(".wit")).collect();
    names.sort();
    names.reverse();
    let mut arguments: Vec<&str> = names.iter().map(String::as_str).collect();
    arguments.push("--listing");
    assert_eq!(ran(Path::new(&library), &arguments), (0, listing, String::new()));
    let (status, json, _) = ran(Path::new(&library), &["--json", "."]);
    let group = tulfjak::Group::from_json(&json).expect("a group");
    assert_eq!((status, group.packages.len(), group.to_json() + "\n"), (0, 2, json));
}

#[test]
fn folders_are_read_by_name_and_not_deeper() {
    let folder = folder("folders");
    fs::create_dir_all(folder.join("deps.wit")).expect("a folder");
    fs::create_dir_all(folder.join("empty")).expect("a folder");
    fs::write(folder.join("b.wit"), "interface i { use j.{t}; }").expect("a file");
    fs::write(folder.join("a.wit"), "package a:b; package c:d { interface k {} }").expect("a file");
    fs::write(folder.join("c.wit"), "/*\n=== d.wit\n*/ interface j { type t = u8; }").expect("a file");
    fs::write(folder.join("other.txt"), "not WIT").expect("a file");
    fs::write(folder.join("deps.wit/deep.wit"), "not WIT").expect("a file");
    let (status, listing, error) = ran(&folder, &["--listing", "."]);
    assert_eq!((status, &*error), (0, ""));
    assert!(listing.starts_with("package a:b\n") && listing.contains("\npackage c:d\n"), "{listing}");
    let (status, json, _) = ran(&folder, &["--json", "."]);
    let group = tulfjak::Group::from_json(&json).expect("a group");
    let paths: Vec<_> = group.sources.iter().map(|source| &*source.path).collect();
    assert_eq!((status, &*paths), (0, &["./a.wit", "./b.wit", "./c.wit"][..]));
    let (status, output, error) = ran(&folder, &["empty"]);
    assert_eq!((status, &*output, &*error), (2, "", "tulfjak: empty: this folder has no *.wit\n"));
}

#[test]
fn a_million_lines() {
    let text = "package a:b;\n".to_owned() + &"// a line\n".repeat(999_998) + "interface i { type t = u; }\n";
    let printed = "error[E15]: type `u` does not exist
       --> stdin.wit:1000000:24
        |
1000000 | interface i { type t = u; }
        |                        ^
";
    assert_eq!(fed(text.as_bytes(), &["-"]), (1, String::new(), printed.into()));
}

#[test]
fn what_cannot_be_read() {
    let folder = folder("unread");
    fs::write(folder.join("a.wit"), b"package a:b; // \xff").expect("a file");
    fs::write(folder.join("b.wit"), "package a:b;").expect("a file");
    for path in ["a.wit", "no.wit", "b.wit/c.wit", "."] {
        let (status, output, error) = ran(&folder, &["b.wit", path]);
        assert_eq!((status, &*output), (2, ""), "{error}");
        assert!(error.starts_with(&format!("tulfjak: {}", path.trim_end_matches('.'))) && error.lines().count() == 1, "{error}");
    }
    let (status, output, error) = fed(b"\xff", &["-"]);
    assert_eq!((status, &*output), (2, ""));
    assert!(error.starts_with("tulfjak: standard input: "), "{error}");
}

#[cfg(target_os = "linux")]
#[test]
fn what_cannot_be_opened_or_read_on_linux() {
    use std::os::unix::fs::{PermissionsExt, symlink};
    let folder = folder("closed");
    symlink("nowhere", folder.join("a.wit")).expect("a link");
    let (status, _, error) = ran(&folder, &["."]);
    assert!(status == 2 && error.starts_with("tulfjak: ./a.wit: "), "{error}");
    // Reading this one fails, for whomever.
    let (status, _, error) = ran(&folder, &["/proc/self/mem"]);
    assert!(status == 2 && error.starts_with("tulfjak: /proc/self/mem: "), "{error}");
    let closed = folder.join("b.wit");
    fs::write(&closed, "package a:b;").expect("a file");
    fs::set_permissions(&closed, fs::Permissions::from_mode(0o000)).expect("closed");
    let readable = fs::read(&closed).is_ok();
    assert_eq!(ran(&folder, &["b.wit"]).0, if readable { 0 } else { 2 });
}

#[cfg(target_os = "linux")]
#[test]
fn a_path_that_is_not_utf_8() {
    use std::ffi::OsStr;
    use std::os::unix::ffi::OsStrExt;
    let folder = folder("path");
    let name = OsStr::from_bytes(b"a\xff.wit");
    fs::write(folder.join(name), "package a:b; world w {").expect("a file");
    let output = command(&folder, &["--short"]).arg(name).output().expect("a command");
    assert_eq!(output.status.code(), Some(1));
    assert_eq!(String::from_utf8(output.stderr).as_deref(), Ok("a\u{fffd}.wit:1:23: error[E47]: unexpected token\n"));
}

#[test]
fn a_closed_pipe_ends_it_quietly() {
    let folder = folder("pipe");
    let functions: String = (0..20_000).map(|number| format!("call{number}: func();\n")).collect();
    fs::write(folder.join("a.wit"), format!("package a:b; interface i {{ {functions} }}")).expect("a file");
    for option in ["--json", "--listing"] {
        let mut child = command(&folder, &[option, "a.wit"]).stdout(Stdio::piped()).stderr(Stdio::piped()).spawn().expect("a command");
        let mut output = child.stdout.take().expect("a pipe");
        output.read_exact(&mut [0]).expect("a byte");
        drop(output);
        let end = child.wait_with_output().expect("an end");
        assert_eq!((end.status.code(), &*end.stderr), (Some(2), &b""[..]), "{option}");
    }
}

#[cfg(target_os = "linux")]
#[test]
fn output_that_fails() {
    let full = || fs::OpenOptions::new().write(true).open("/dev/full").expect("a file");
    for option in ["--help", "--version", "--explain=1", "--json"] {
        let mut command = command(Path::new("."), &[option, "-"]);
        let output = command.stdout(full()).output().expect("a command");
        assert_eq!(output.status.code(), Some(2), "{option}");
        let error = String::from_utf8_lossy(&output.stderr).into_owned();
        assert!(error.starts_with("tulfjak: standard output: "), "{error}");
    }
    assert_eq!(command(Path::new("."), &["-"]).stderr(full()).status().expect("a command").code(), Some(2));
}

#[test]
fn help_fits_a_screen() {
    let (status, help, error) = ran(Path::new("."), &["--help"]);
    assert_eq!((status, &*error), (0, ""));
    assert!(help.lines().count() <= 24 && help.lines().all(|line| line.chars().count() <= 80), "{help}");
    for arguments in [&[][..], &["-h"], &["no.wit", "--help"]] {
        assert_eq!(ran(Path::new("."), arguments), (0, help.clone(), String::new()));
    }
    assert_eq!(ran(Path::new("."), &["--version"]), (0, concat!("tulfjak ", env!("CARGO_PKG_VERSION"), "\n").into(), String::new()));
    assert_eq!(ran(Path::new("."), &["-V"]).0, 0);
}

#[test]
fn the_manual_page_has_all_options() {
    let page = fs::read_to_string(kept("bindings/rust/tulfjak.1")).expect("a page").replace('\\', "");
    assert!(page.contains(concat!("tulfjak ", env!("CARGO_PKG_VERSION"))));
    let (_, help, _) = ran(Path::new("."), &["--help"]);
    let options = help.split_whitespace().map(|word| word.trim_end_matches(',')).filter(|word| word.starts_with('-') && word.len() > 1);
    assert!(options.clone().count() >= 9);
    for option in options {
        assert!(page.contains(option), "{option}");
    }
}

#[test]
fn rules_are_explained() {
    for rule in tulfjak::rules() {
        let (status, printed, _) = ran(Path::new("."), &["--explain", &format!("E{rule}")]);
        let words: Vec<&str> = printed.split_whitespace().skip(1).collect();
        assert_eq!((status, words.join(" ").as_str()), (0, tulfjak::explain(rule).expect("words")));
        assert!(printed.starts_with(&format!("E{rule}: ")) && printed.lines().all(|line| line.len() <= 78), "{printed}");
        assert_eq!(ran(Path::new("."), &[&format!("--explain={rule}")]).1, printed);
    }
}

#[test]
fn wrong_arguments() {
    let wrong: [&[&str]; 10] = [
        &["--what"],
        &["-x", "a.wit"],
        &["--color", "blue", "a.wit"],
        &["--color"],
        &["--explain"],
        &["--explain", "E0"],
        &["--explain", "Erreur"],
        &["--json", "--listing", "a.wit"],
        &["--json"],
        &["--short=yes", "a.wit"],
    ];
    for arguments in wrong {
        let (status, output, error) = ran(Path::new("."), arguments);
        assert_eq!((status, &*output), (2, ""), "{arguments:?}");
        assert!(error.starts_with("tulfjak: ") && error.ends_with("\nTry `tulfjak --help`.\n"), "{error}");
    }
}
