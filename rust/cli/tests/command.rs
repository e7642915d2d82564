//! The command, run in a folder of its own.

use std::io::Write as _;
use std::path::{Path, PathBuf};
use std::process::{Command, Stdio};
use std::{env, fs, process, thread};

/// A folder for one test.
struct Folder(PathBuf);

impl Folder {
    fn new(name: &str) -> Self {
        let folder = env::temp_dir().join(format!("diverplume-{name}-{}", process::id()));
        fs::create_dir_all(&folder).expect("a folder");
        Self(folder)
    }

    fn with(self, file: &str, text: &str) -> Self {
        let path = self.0.join(file);
        fs::create_dir_all(path.parent().expect("a folder")).expect("a folder");
        fs::write(path, text).expect("a file");
        self
    }

    fn read(&self, file: &str) -> String {
        fs::read_to_string(self.0.join(file)).expect("a file")
    }

    /// A named pipe, and what is done with it once the command reads it.
    #[cfg(unix)]
    fn with_pipe(self, name: &str, read: impl FnOnce(fs::File) + Send + 'static) -> Self {
        let path = self.0.join(name);
        assert!(Command::new("mkfifo").arg(&path).status().expect("mkfifo").success());
        // A pipe is opened when its other end is.
        thread::spawn(move || read(fs::OpenOptions::new().write(true).open(path).expect("a pipe")));
        self
    }

    /// The names of all files in the folder.
    fn names(&self) -> Vec<String> {
        let entries = fs::read_dir(&self.0).expect("a folder");
        let mut names: Vec<_> =
            entries.map(|entry| entry.unwrap().file_name().into_string().unwrap()).collect();
        names.sort();
        names
    }

    /// Runs the command in the folder: exit status, standard output and standard error.
    fn run(&self, arguments: &[&str]) -> (i32, String, String) {
        run(&self.0, arguments, "")
    }
}

impl Drop for Folder {
    fn drop(&mut self) {
        fs::remove_dir_all(&self.0).expect("the folder");
    }
}

fn run(folder: &Path, arguments: &[&str], input: &str) -> (i32, String, String) {
    let mut child = Command::new(env!("CARGO_BIN_EXE_diverplume"))
        .args(arguments)
        .current_dir(folder)
        .stdin(Stdio::piped())
        .stdout(Stdio::piped())
        .stderr(Stdio::piped())
        .spawn()
        .expect("the command");
    child.stdin.take().expect("a pipe").write_all(input.as_bytes()).expect("the input");
    let output = child.wait_with_output().expect("the output");
    let text = |bytes| String::from_utf8(bytes).expect("UTF-8");
    (output.status.code().expect("a status"), text(output.stdout), text(output.stderr))
}

fn of_input(arguments: &[&str], input: &str) -> (i32, String, String) {
    run(&env::temp_dir(), arguments, input)
}

fn said(status: i32, output: &str, messages: &str) -> (i32, String, String) {
    (status, output.to_owned(), messages.to_owned())
}

#[test]
fn standard_input() {
    assert_eq!(of_input(&[], "val x=1"), said(0, "val x = 1\n", ""));
    assert_eq!(of_input(&["-"], "val x = 1\n"), said(0, "val x = 1\n", ""));
    assert_eq!(of_input(&[], " \n"), said(0, "", ""));
    assert_eq!(
        of_input(&["--tab", "4"], "val x=if a then b else c"),
        said(0, "val x =\n    if a then\n        b\n    else\n        c\n", "")
    );
}

#[test]
fn refusals() {
    let refused = |input: &str, message: &str| {
        assert_eq!(of_input(&[], input), said(1, "", &format!("<standard input>:{message}\n")));
    };
    refused("val x =\n  then", "2:3: an expression is expected, not \"then\"");
    refused(
        "val 'a x = []",
        "1:5: type variables behind \"val\" would be lost; annotate the pattern instead",
    );
    let lost = "formatting would lose this comment; move it above a declaration";
    refused("val x =\n  (* c *) 1", &format!("2:3: {lost}"));
    refused("val x = (* c *) (* d *) 1", &format!("1:9: {lost}\n<standard input>:1:17: {lost}"));
    let many = format!("val x ={} 1", " (* c *)".repeat(12));
    let messages = of_input(&[], &many).2;
    assert_eq!(messages.lines().count(), 11);
    assert!(messages.ends_with(": 2 more comments stand where they would be lost\n"));
    let wide = of_input(&["--tab", "4294967295"], "val x = (a; (b; c))").2;
    assert!(wide.contains("take a smaller tab size"), "{wide}");
}

#[test]
fn warnings() {
    let moved = "val x = (* c *) 1 val y = 2";
    let text = "val x = 1\n\n(* c *)\nval y = 2\n";
    let warning =
        "<standard input>:1:9: warning: this comment is written above the declaration at 1:19\n";
    assert_eq!(of_input(&[], moved), said(0, text, warning));
    assert_eq!(of_input(&["--quiet"], moved), said(0, text, ""));
    let (_, _, twice) = of_input(&[], "(* c *) val x = 1; f x; g x");
    assert_eq!(
        twice,
        "<standard input>:1:1: warning: this comment is written 3 times, above the declarations at \
         1:9 and 1:20 and others\n"
    );
}

#[test]
fn files_and_folders() {
    let folder = Folder::new("files")
        .with("a.sml", "val a=1")
        .with("b/c.sig", "signature S=A")
        .with("b/d.fun", "functor F()=A")
        .with("b/.hidden/e.sml", "val e=1")
        .with("b/f.txt", "no file of ours")
        .with("g/h.txt", "no file of ours");
    assert_eq!(folder.run(&["a.sml"]), said(0, "val a = 1\n", ""));
    assert_eq!(folder.run(&["b"]), said(0, "signature S = A\nfunctor F () = A\n", ""));
    let none = "diverplume: no file .sml, .sig or .fun stands there\n";
    assert_eq!(folder.run(&["g"]), said(0, "", none));
    let (status, _, messages) = folder.run(&["none.sml", "a.sml"]);
    assert_eq!(status, 2);
    assert!(messages.starts_with("none.sml: "), "{messages}");
    let (status, _, messages) = folder.run(&["b/f.txt", "none.sml"]);
    assert_eq!(status, 2, "{messages}");
    assert!(messages.starts_with("b/f.txt:1:9: \";\" is expected"), "{messages}");
}

#[test]
fn write() {
    let folder = Folder::new("write")
        .with("a.sml", "val a=1")
        .with("b.sml", "val b = 1\n")
        .with("c.sml", "val c = then");
    let (status, output, messages) = folder.run(&["-w", "."]);
    assert_eq!((status, output.as_str()), (1, ""));
    assert_eq!(
        messages,
        "./c.sml:1:9: an expression is expected, not \"then\"\n\
         diverplume: 1 written, 1 formatted before, 1 left alone\n"
    );
    assert_eq!(folder.read("a.sml"), "val a = 1\n");
    assert_eq!(folder.read("b.sml"), "val b = 1\n");
    assert_eq!(folder.read("c.sml"), "val c = then");
    assert_eq!(folder.names(), ["a.sml", "b.sml", "c.sml"]);
    assert_eq!(folder.run(&["-w", "a.sml"]), said(0, "", ""));
}

#[test]
fn files_named_twice_are_written_once() {
    let folder = Folder::new("twice").with("a.sml", "val a=1").with("b.sml", "val b=1");
    let message = "diverplume: 2 written, 0 formatted before, 0 left alone\n";
    assert_eq!(folder.run(&["-w", "a.sml", ".", "./b.sml", "a.sml"]), said(0, "", message));
    assert_eq!(folder.read("a.sml"), "val a = 1\n");
    assert_eq!(folder.run(&["a.sml", "./a.sml"]), said(0, "val a = 1\nval a = 1\n", ""));
}

#[test]
fn protected_files_are_left_alone() {
    let folder = Folder::new("protected").with("a.sml", "val a=1");
    let path = folder.0.join("a.sml");
    let mut permissions = fs::metadata(&path).unwrap().permissions();
    permissions.set_readonly(true);
    fs::set_permissions(&path, permissions).unwrap();
    let message = "a.sml: the file is write-protected and left alone\n";
    assert_eq!(folder.run(&["-w", "a.sml"]), said(2, "", message));
    assert_eq!(folder.read("a.sml"), "val a=1");
    assert_eq!(folder.run(&["a.sml"]), said(0, "val a = 1\n", ""));
}

#[cfg(unix)]
#[test]
fn files_that_change_are_left_alone() {
    let folder = Folder::new("changed").with("other", "val a=2");
    let [other, path] = ["other", "a.sml"].map(|name| folder.0.join(name));
    // The command has opened the one when the other takes its name.
    let folder = folder.with_pipe("a.sml", move |mut pipe| {
        fs::rename(other, path).expect("the other file");
        pipe.write_all(b"val a=1").expect("the text");
    });
    let message = "a.sml: the file changed while it was formatted, and is left alone\n";
    assert_eq!(folder.run(&["-w", "a.sml"]), said(2, "", message));
    assert_eq!(folder.read("a.sml"), "val a=2");
    assert_eq!(folder.names(), ["a.sml"]);
}

#[cfg(unix)]
#[test]
fn pipes_are_read_and_not_written() {
    let text = |mut pipe: fs::File| pipe.write_all(b"val a=1").expect("the text");
    let folder = Folder::new("pipes").with_pipe("a.sml", text).with_pipe("b.sml", text);
    assert_eq!(folder.run(&["a.sml"]), said(0, "val a = 1\n", ""));
    let message = "b.sml: it is a pipe or a device, no file that can be written back\n";
    assert_eq!(folder.run(&["-w", "b.sml"]), said(2, "", message));
    assert_eq!(folder.names(), ["a.sml", "b.sml"]);
}

#[test]
fn check() {
    let folder = Folder::new("check").with("a.sml", "val a=1").with("b.sml", "val b = 1\n");
    assert_eq!(folder.run(&["--check", "."]), said(1, "./a.sml\n", ""));
    assert_eq!(folder.run(&["--check", "b.sml"]), said(0, "", ""));
    assert_eq!(folder.read("a.sml"), "val a=1");
}

#[test]
fn diff() {
    let folder = Folder::new("diff").with("a.sml", "val a=1\n").with("b.sml", "val b = 1\n");
    let shown = "--- ./a.sml\n+++ ./a.sml\n@@ -1,1 +1,1 @@\n-val a=1\n+val a = 1\n";
    assert_eq!(folder.run(&["-d", "."]), said(0, shown, ""));
    assert_eq!(folder.run(&["-d", "--check", "."]), said(1, shown, ""));
}

#[test]
fn why() {
    let folder = Folder::new("why").with("a.sml", "(* grounds *)\nval a = 1\n");
    let shown =
        "a.sml:2:1: this declaration has the comment at 1:1; the search passed the keyword \
                 \"val\" at 2:1\n(* grounds *)\n";
    assert_eq!(folder.run(&["--why", "2:5", "a.sml"]), said(0, shown, ""));
    let none = "a.sml:9:1: no declaration stands here\n";
    assert_eq!(folder.run(&["--why=9:1", "a.sml"]), said(1, "", none));
}

#[test]
fn help_and_version() {
    let (status, help, _) = of_input(&["--help"], "");
    assert_eq!(status, 0);
    let options = ["--write", "--check", "--diff", "--tab", "--why", "--quiet", "--version"];
    assert!(options.iter().all(|option| help.contains(option)));
    assert_eq!(of_input(&["--version"], "").1, "diverplume 0.1.0\n");
    let message = "diverplume: there is no option --x; 'diverplume --help' lists what there is\n";
    assert_eq!(of_input(&["--x"], ""), said(2, "", message));
}

#[test]
fn many_files_come_in_order() {
    let numbers = 100..200;
    let folder = numbers.clone().fold(Folder::new("many"), |folder, number| {
        folder.with(&format!("{number}.sml"), &format!("val x={number}"))
    });
    let expected: Vec<_> = numbers.map(|number| format!("val x = {number}\n")).collect();
    assert_eq!(folder.run(&["."]), said(0, &expected.concat(), ""));
}

#[test]
fn sample() {
    let (status, output, _) = of_input(&[], include_str!("../../../examples/sample.sml"));
    let expected = include_str!("../../../examples/sample.formatted.sml");
    assert_eq!((status, output), (0, format!("{expected}\n")));
}
