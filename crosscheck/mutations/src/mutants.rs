//! Builds wrong settlements with plain rustc and lets them be judged. What
//! they share, the unchanged settlement and the judging, is built once.

use crate::edits::Edit;
use judging::REPORT_ALONE;
use std::fs;
use std::io::Read;
use std::path::{Path, PathBuf};
use std::process::{Child, Command, Stdio};
use std::thread::sleep;
use std::time::{Duration, Instant};

/// A wrong settlement that is not judged by then does not end.
const TIME_LIMIT: Duration = Duration::from_secs(300);

/// Modules that a wrong settlement is built without: the generators, since its
/// cases come from the unchanged ones.
const LEFT_OUT: [&str; 3] = [
    "pub mod books;\n",
    "pub mod records;\n",
    "pub mod vectors;\n",
];

/// The source of the report, whose functions no other answer uses.
const REPORT: &str = "src/report.rs";

/// The folder of this package.
const PACKAGE: &str = env!("CARGO_MANIFEST_DIR");

/// A file or folder of this package.
pub fn of_package(path: &str) -> PathBuf {
    Path::new(PACKAGE).join(path)
}

/// A crate to be compiled.
struct Crate<'a> {
    name: &'a str,
    root: PathBuf,
    form: &'a [&'a str],
}

/// The folder with what all wrong settlements share.
pub struct Shared {
    folder: PathBuf,
}

impl Shared {
    /// Builds the unchanged settlement and the judging.
    pub fn build() -> Result<Shared, String> {
        let folder = of_package("target/mutants");
        fs::create_dir_all(&folder).map_err(|error| error.to_string())?;
        let shared = Shared { folder };
        let settlement = Crate {
            name: "settlement",
            root: of_package("../src/lib.rs"),
            form: &["--crate-type", "rlib", "-C", "opt-level=3"],
        };
        let judging = Crate {
            name: "judging",
            root: of_package("src/judging.rs"),
            form: &[settlement.form, &["--extern", "settlement"]].concat(),
        };
        shared.compile(&shared.folder, &settlement)?;
        shared.compile(&shared.folder, &judging)?;
        Ok(shared)
    }

    /// Compiles a crate into a folder.
    fn compile(&self, into: &Path, due: &Crate) -> Result<(), String> {
        let output = Command::new("rustc")
            .args(["--edition", "2021", "--cap-lints", "allow"])
            .args(["-C", "overflow-checks=on", "--crate-name", due.name])
            .args(due.form)
            .args([Path::new("-L"), &self.folder, Path::new("-L"), into])
            .args([Path::new("--out-dir"), into, &due.root])
            .output()
            .map_err(|error| format!("rustc: {error}"))?;
        if output.status.success() {
            Ok(())
        } else {
            let told = String::from_utf8_lossy(&output.stderr);
            Err(format!("{} does not compile\n{told}", due.name))
        }
    }

    /// The case that tells a settlement with an edit apart, and the answers; or
    /// nothing. Without an edit it is the unchanged settlement.
    pub fn judge(&self, name: &str, edit: Option<&Edit>, books: u64) -> Result<String, String> {
        let folder = self.folder.join(name);
        copy_sources(&folder, edit)?;
        // Mostly an early case tells it apart, so that building is what costs.
        let wrong = Crate {
            name: "wrong",
            root: folder.join("lib.rs"),
            form: &["--crate-type", "rlib", "-C", "opt-level=0"],
        };
        let judged = Crate {
            name: "judged",
            root: of_package("src/wrong.rs"),
            form: &["--extern", "judging", "--extern", "wrong"],
        };
        self.compile(&folder, &wrong)?;
        self.compile(&folder, &judged)?;
        let child = Command::new(folder.join("judged"))
            .arg(tried(edit, books))
            .stdout(Stdio::piped())
            .spawn();
        printed_in_time(child.map_err(|error| error.to_string())?)
    }
}

/// What is tried of a settlement with an edit: a wrong report answers the inputs
/// of the report alone.
fn tried(edit: Option<&Edit>, books: u64) -> String {
    match edit {
        Some(edit) if edit.file == REPORT => REPORT_ALONE.to_string(),
        _ => books.to_string(),
    }
}

/// Copies the settlement without its generators, with the edit made.
fn copy_sources(folder: &Path, edit: Option<&Edit>) -> Result<(), String> {
    let told = |error: std::io::Error| error.to_string();
    fs::create_dir_all(folder).map_err(told)?;
    let mut made = edit.is_none();
    for entry in fs::read_dir(of_package("../src")).map_err(told)? {
        let path = entry.map_err(told)?.path();
        if !path.is_file() {
            continue; // folders of generators and programs
        }
        let mut source = fs::read_to_string(&path).map_err(told)?;
        for line in LEFT_OUT {
            source = source.replace(line, "");
        }
        let name = path.file_name().unwrap_or_default();
        if let Some(edit) = edit.filter(|edit| Path::new(&edit.file) == Path::new("src").join(name))
        {
            source = edit.apply(&source)?;
            made = true;
        }
        fs::write(folder.join(name), source).map_err(told)?;
    }
    made.then_some(()).ok_or("no such source".to_string())
}

/// What a program prints, if it ends well and in time.
fn printed_in_time(mut child: Child) -> Result<String, String> {
    let begin = Instant::now();
    let status = loop {
        match child.try_wait().map_err(|error| error.to_string())? {
            Some(status) => break status,
            None if begin.elapsed() > TIME_LIMIT => {
                let killed = child.kill().and_then(|()| child.wait());
                return Err(format!("does not end in time ({killed:?})"));
            }
            None => sleep(Duration::from_millis(5)),
        }
    };
    let mut printed = String::new();
    let output = child.stdout.as_mut().ok_or("no output")?;
    output
        .read_to_string(&mut printed)
        .map_err(|error| error.to_string())?;
    if status.success() {
        Ok(printed)
    } else {
        Err(format!("ends with {status}"))
    }
}
