//! A small repository in a temporary folder, with the scripts of this one: its crates are proved in seconds.

use crate::script::here;
use std::fs;
use std::os::unix::fs::{MetadataExt, PermissionsExt};
use std::path::{Path, PathBuf};
use std::process::Command;
use std::sync::atomic::{AtomicUsize, Ordering};

/// A temporary folder, removed when it is dropped.
pub struct Folder(PathBuf);

impl Folder {
    pub fn temporary() -> Self {
        static NEXT: AtomicUsize = AtomicUsize::new(1);
        let name = format!("simulate test {} {}", std::process::id(), NEXT.fetch_add(1, Ordering::Relaxed));
        let folder = Folder(std::env::temp_dir().join(name));
        fs::create_dir(&folder.0).expect("the folder is made");
        folder
    }

    pub fn path(&self, name: &str) -> PathBuf {
        self.0.join(name)
    }

    /// Writes a file, and the folders that it stands in.
    pub fn write(&self, name: &str, text: impl AsRef<[u8]>) {
        let path = self.path(name);
        fs::create_dir_all(path.parent().expect("a file stands in a folder")).expect("its folder is made");
        fs::write(path, text).expect("the file is written");
    }

    /// Closes a file to everyone, and gives the command that runs a program of this folder where that counts: every file is
    /// open to root, so root runs it as nobody.
    pub fn close(&self, name: &str, program: &str) -> Command {
        let mut command = Command::new(program);
        if fs::metadata(self.path(name)).expect("the file is there").uid() == 0 {
            let open = Command::new("chmod").args(["-R", "go+rX"]).arg(self.path("")).status();
            assert!(open.is_ok_and(|status| status.success()));
            command = Command::new("setpriv");
            command.args(["--reuid=65534", "--regid=65534", "--clear-groups", program]);
        }
        fs::set_permissions(self.path(name), fs::Permissions::from_mode(0o000)).expect("the file is closed");
        command.current_dir(self.path(""));
        command
    }

    /// Copies files, or folders with all that is in them, into this one.
    pub fn copy(&self, paths: &[impl AsRef<Path>]) {
        // A file that this process wrote itself may be busy for a moment, and could not be run.
        let copied = Command::new("cp").arg("-R").args(paths.iter().map(AsRef::as_ref)).arg(self.path("")).status();
        assert!(copied.is_ok_and(|status| status.success()), "the files are not copied");
    }
}

impl Drop for Folder {
    fn drop(&mut self) {
        drop(fs::remove_dir_all(&self.0));
    }
}

/// Copies its input, of 64 bytes at most, to its output.
const PROGRAM: &str = "#![tactic(auto)]

use std::io::{Print, Read};

fn main(rt: HostRuntime) {
    let mut buffer = [0u8; 64];
    if let Ok(n) = rt.stdin().read(&mut buffer) {
        let _ = rt.write_all(&buffer[..n]);
    }
}
";

/// The programs `simulate` and `join` copy their input. `simulate` rests on `one`, and on `two` and `three`, which rest on `one`;
/// `join` rests on `one`. Nothing is built, and its texts are no other repository's, so that rt takes no proof of another.
pub fn repository() -> Folder {
    let folder = Folder::temporary();
    folder.copy(&["simulate", "join", "tools"].map(here));
    folder.write(
        "crates.txt",
        "# NAME: rests on\none:\ntwo: one\nthree: one\nother: one\njoin: one\nsimulate: two three one\n",
    );
    for name in ["one", "two", "three", "other"] {
        let place = folder.path("");
        let text = format!("// {}\n#![tactic(auto)]\n\npub fn {name}() -> usize {{\n    7\n}}\n", place.display());
        folder.write(&format!("crates/{name}/src/lib.rt"), text);
    }
    for program in ["simulate", "join"] {
        folder.write(&format!("crates/{program}/src/main.rt"), PROGRAM);
    }
    folder
}

/// What is built in such a folder, or left by a proof.
pub fn made_in(folder: &Folder) -> Vec<PathBuf> {
    let crates = fs::read_dir(folder.path("crates")).expect("the crates are listed");
    let outs = crates.map(|entry| entry.expect("a crate is read").path().join("out"));
    outs.chain([folder.path("target")]).filter(|path| path.exists()).collect()
}

/// The processes that run in a folder, or in one below it.
pub fn processes_in(folder: &Path) -> Vec<PathBuf> {
    let all =
        fs::read_dir("/proc").expect("the processes are listed").map(|entry| entry.expect("an entry is read").path());
    all.filter(|process| fs::read_link(process.join("cwd")).is_ok_and(|cwd| cwd.starts_with(folder))).collect()
}
