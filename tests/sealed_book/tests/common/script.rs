//! A script of the repository, run in a folder of its own, with stand-ins for what it calls.

use std::fs;
use std::os::unix::fs::{symlink, PermissionsExt};
use std::path::{Path, PathBuf};
use std::process::{Command, Output, Stdio};

use super::document::root;

/// A repository with the script alone. It is not below this repository, in which rt suffers no other crates.txt and no
/// other sources, and is removed at the end of a test that passes.
pub struct Scratch {
    script: String,
    root: PathBuf,
}

impl Drop for Scratch {
    fn drop(&mut self) {
        if !std::thread::panicking() {
            fs::remove_dir_all(self.folder()).expect("it is removed");
        }
    }
}

impl Scratch {
    /// The script finds these tools of the system, and others only where they are written.
    pub fn new(script: &str, name: &str, tools: &[&str]) -> Scratch {
        let folder = format!("{script} {} {name}", std::process::id());
        let scratch = Scratch {
            script: script.to_string(),
            root: std::env::temp_dir().join(folder).join(name),
        };
        if scratch.root.exists() {
            fs::remove_dir_all(&scratch.root).expect("an earlier one is removed");
        }
        fs::create_dir_all(scratch.at("bin")).unwrap();
        fs::copy(root().join(script), scratch.at(script)).unwrap();
        let path = std::env::var_os("PATH").expect("a path");
        for tool in tools {
            let mut found = std::env::split_paths(&path).map(|folder| folder.join(tool));
            let found = found.find(|file| file.exists()).expect(tool);
            symlink(found, scratch.at("bin").join(tool)).unwrap();
        }
        scratch
    }

    /// The folder that has nothing else.
    fn folder(&self) -> &Path {
        self.root.parent().expect("a folder above")
    }

    pub fn at(&self, path: &str) -> PathBuf {
        self.root.join(path)
    }

    pub fn write(&self, path: &str, text: &str) {
        let file = self.at(path);
        fs::create_dir_all(file.parent().expect("a folder")).unwrap();
        fs::write(file, text).unwrap();
    }

    pub fn read(&self, path: &str) -> String {
        fs::read_to_string(self.at(path)).expect(path)
    }

    pub fn write_tool(&self, name: &str, script: &str) {
        let file = self.at("bin").join(name);
        fs::write(&file, script).unwrap();
        fs::set_permissions(file, fs::Permissions::from_mode(0o755)).unwrap();
    }

    pub fn remove(&self, path: &str) {
        fs::remove_file(self.at(path)).unwrap();
    }

    /// A run, from the folder above, with only the tools in `bin`.
    pub fn run(&self, arguments: &[&str]) -> Command {
        let mut run = Command::new(self.at(&self.script));
        run.args(arguments)
            .current_dir(self.folder())
            .env("PATH", self.at("bin"))
            .stdout(Stdio::piped())
            .stderr(Stdio::piped());
        run
    }

    /// The lines of the file `calls`, to which a stand-in writes.
    pub fn calls(&self) -> Vec<String> {
        let calls = fs::read_to_string(self.at("calls")).unwrap_or_default();
        calls.lines().map(str::to_string).collect()
    }
}

pub fn said(output: &Output) -> String {
    [&output.stdout, &output.stderr]
        .map(|bytes| String::from_utf8_lossy(bytes))
        .concat()
}

/// The names of what is in a folder.
pub fn names(folder: &Path) -> Vec<String> {
    let entries = fs::read_dir(folder).unwrap();
    let mut names: Vec<String> = entries
        .map(|entry| entry.unwrap().file_name().to_string_lossy().into_owned())
        .collect();
    names.sort();
    names
}
