//! What the checks share: files, commands, pages, and what is skipped.

pub mod page;

use std::env;
use std::fs::{self, OpenOptions};
use std::io::Write;
use std::os::unix::fs::symlink;
use std::path::{Path, PathBuf};
use std::process::{Command, Stdio};
use std::sync::Mutex;

/// The top of the repository.
pub fn root() -> PathBuf {
    let top = Path::new(env!("CARGO_MANIFEST_DIR")).join("../..");
    top.canonicalize().expect("the repository is there")
}

/// A file of the repository.
pub fn read(path: impl AsRef<Path>) -> String {
    let path = root().join(path);
    fs::read_to_string(&path).unwrap_or_else(|why| panic!("{}: {why}", path.display()))
}

/// The folder for all that is built: the one that GAUGE_TARGET names, else target/.
pub fn target() -> PathBuf {
    let named = env::var_os("GAUGE_TARGET").filter(|name| !name.is_empty());
    root().join(named.unwrap_or_else(|| "target".into()))
}

/// A folder of this name for what a check makes, empty.
pub fn scratch(name: &str) -> PathBuf {
    let folder = target().join("host").join(name);
    if folder.exists() {
        fs::remove_dir_all(&folder).expect("an old folder can be removed");
    }
    fs::create_dir_all(&folder).expect("a folder can be made");
    folder
}

/// A link that is gone once its check is done: `rt ci` wants none below the top of the repository.
pub struct Link(PathBuf);

impl Link {
    pub fn new(to: impl AsRef<Path>, at: PathBuf) -> Link {
        symlink(to, &at).expect("a link can be made");
        Link(at)
    }
}

impl Drop for Link {
    fn drop(&mut self) {
        let _ = fs::remove_file(&self.0);
    }
}

/// The files below a folder of the repository whose names end so, in order, from the top.
pub fn files(folder: &str, ending: &str) -> Vec<PathBuf> {
    let entries = fs::read_dir(root().join(folder)).unwrap_or_else(|why| panic!("{folder}: {why}"));
    let mut paths: Vec<PathBuf> = entries
        .map(|entry| Path::new(folder).join(entry.expect("an entry can be read").file_name()))
        .filter(|path| path.to_string_lossy().ends_with(ending))
        .collect();
    paths.sort();
    paths
}

/// The archive that is checked.
pub fn archive() -> PathBuf {
    let named = env::var_os("GAUGE_ARCHIVE").expect("GAUGE_ARCHIVE names the archive");
    PathBuf::from(named)
}

/// A command that runs at the top of the repository and speaks and sorts plainly.
pub fn command(program: impl AsRef<std::ffi::OsStr>) -> Command {
    let mut command = Command::new(program);
    command.current_dir(root()).env("LC_ALL", "C");
    command
}

/// What a command prints; it must succeed.
pub fn printed(command: &mut Command) -> String {
    let done = command
        .output()
        .unwrap_or_else(|why| panic!("{command:?}: {why}"));
    let (out, err) = (text(done.stdout), text(done.stderr));
    assert!(
        done.status.success(),
        "{command:?}: {}\n{out}{err}",
        done.status
    );
    out
}

/// What a command prints, whether it succeeds or not.
pub fn shown(command: &mut Command) -> String {
    let done = command
        .output()
        .unwrap_or_else(|why| panic!("{command:?}: {why}"));
    text(done.stdout)
}

/// What a command prints when it is given this.
pub fn filtered(command: &mut Command, input: &str) -> String {
    let mut child = command
        .stdin(Stdio::piped())
        .stdout(Stdio::piped())
        .spawn()
        .unwrap_or_else(|why| panic!("{command:?}: {why}"));
    let mut pipe = child.stdin.take().expect("the pipe is there");
    let given = input.to_string();
    // A command may stop reading early.
    let writer = std::thread::spawn(move || pipe.write_all(given.as_bytes()).is_ok());
    let done = child.wait_with_output().expect("a command ends");
    writer.join().expect("a writer ends");
    text(done.stdout)
}

/// Whether a command fails.
pub fn fails(command: &mut Command) -> bool {
    let done = command
        .output()
        .unwrap_or_else(|why| panic!("{command:?}: {why}"));
    !done.status.success()
}

fn text(bytes: Vec<u8>) -> String {
    String::from_utf8(bytes).expect("what is printed is text")
}

/// Two texts are one, or the first line that differs is named.
pub fn same(what: &str, expected: &str, found: &str) {
    let pairs = expected.lines().zip(found.lines()).enumerate();
    for (place, (wanted, line)) in pairs {
        assert_eq!(wanted, line, "{what}: line {}", place + 1);
    }
    let (wanted, lines) = (expected.lines().count(), found.lines().count());
    assert_eq!(wanted, lines, "{what}: number of lines\n{found}");
    assert_eq!(expected, found, "{what}");
}

/// Whether a tool is installed. One that is not is said to be skipped, with what it was for.
pub fn have(tool: &str, purpose: &str) -> bool {
    let path = env::var_os("PATH").unwrap_or_default();
    let found = env::split_paths(&path).any(|folder| folder.join(tool).is_file());
    if !found {
        skipped(tool, &format!("not installed, so {purpose}"));
    }
    found
}

// What was said already: several checks can lack one tool.
static SAID: Mutex<Vec<String>> = Mutex::new(Vec::new());

/// Says once what was not checked and why, on standard error and in the file that GAUGE_SKIPPED names.
pub fn skipped(name: &str, why: &str) {
    let line = format!("skipped: {name}: {why}\n");
    let mut said = SAID.lock().unwrap_or_else(|broken| broken.into_inner());
    if said.contains(&line) {
        return;
    }
    said.push(line.clone());
    // Not by eprintln!, which a test that passes keeps to itself.
    std::io::stderr()
        .write_all(line.as_bytes())
        .expect("standard error is there");
    let Some(path) = env::var_os("GAUGE_SKIPPED").filter(|path| !path.is_empty()) else {
        return;
    };
    let path = root().join(path);
    let file = OpenOptions::new().create(true).append(true).open(&path);
    let mut file = file.unwrap_or_else(|why| panic!("{}: {why}", path.display()));
    file.write_all(line.as_bytes())
        .expect("a line can be appended");
}
