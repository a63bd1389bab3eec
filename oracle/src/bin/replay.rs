//! Writes the replay lists, or checks that the repository has the lists that it would write.
//!
//!     replay [PROGRAM ..]                 write the lists of these programs into their crates
//!     replay --check [PROGRAM ..]         write nothing; exit 1 where a file differs
//!     replay --into FOLDER [PROGRAM ..]   write into another folder
//!
//! Where no program is named: into another folder all of them, else those that the repository has.

use oracle::lists::{PROGRAMS, Program};
use std::path::{Path, PathBuf};
use std::process::ExitCode;

/// A path and what the file has to hold.
type File = (PathBuf, Vec<u8>);

fn stdout(folder: &Path, program: &Program) -> PathBuf {
    folder.join(program.name).join("stdout")
}

/// A program's files: the calls of each list, the drawing, and the text of all lists together.
fn files(folder: &Path, program: &Program) -> Vec<File> {
    let place = folder.join(program.name);
    let mut text = String::new();
    let mut files = Vec::new();
    for named in program.lists {
        let list = (named.write)();
        text.push_str(&list.stdout);
        if !list.calls.is_empty() {
            let file = format!("data/{}.bin", named.name);
            files.push((place.join(file), list.calls));
        }
        if !list.plot.is_empty() {
            files.push((place.join("plot.svg"), list.plot.into_bytes()));
        }
    }
    files.push((stdout(folder, program), text.into_bytes()));
    files
}

fn write((path, contents): &File) -> std::io::Result<()> {
    std::fs::create_dir_all(path.parent().expect("a file lies in a folder"))?;
    std::fs::write(path, contents)
}

fn differs((path, contents): &File) -> bool {
    !std::fs::read(path).is_ok_and(|found| found == *contents)
}

/// What the words of the command ask for.
struct Order {
    folder: PathBuf,
    check: bool,
    /// Whether to take programs whose files are not in the folder yet.
    new: bool,
    names: Vec<String>,
}

impl Order {
    fn of(words: &[&str]) -> Option<Self> {
        let crates = Path::new(env!("CARGO_MANIFEST_DIR")).join("../crates");
        let (folder, check, new, names) = match words {
            ["--into", folder, names @ ..] => (PathBuf::from(folder), false, true, names),
            ["--check", names @ ..] => (crates, true, !names.is_empty(), names),
            names => (crates, false, !names.is_empty(), names),
        };
        let known = |name: &&str| PROGRAMS.iter().any(|program| program.name == *name);
        names.iter().all(known).then(|| Self {
            folder,
            check,
            new,
            names: names.iter().map(|name| name.to_string()).collect(),
        })
    }

    fn wants(&self, program: &Program) -> bool {
        let chosen = self.names.is_empty() || self.names.iter().any(|name| name == program.name);
        chosen && (self.new || stdout(&self.folder, program).exists())
    }

    /// Writes or checks a program's files. True where they now are as they should be.
    fn carry_out(&self, program: &Program) -> bool {
        let (name, files) = (program.name, files(&self.folder, program));
        let lists: Vec<&str> = program.lists.iter().map(|named| named.name).collect();
        let lists = lists.join(", ");
        if !self.check {
            for file in &files {
                write(file).expect("the folder can be written");
            }
            println!("{name}: written: {lists}");
            return true;
        }
        let different: Vec<&File> = files.iter().filter(|file| differs(file)).collect();
        for (path, _) in &different {
            println!("{name}: not what the oracle writes: {}", path.display());
        }
        if different.is_empty() {
            println!("{name}: as the oracle writes them: {lists}");
        }
        different.is_empty()
    }
}

fn main() -> ExitCode {
    let words: Vec<String> = std::env::args().skip(1).collect();
    let words: Vec<&str> = words.iter().map(String::as_str).collect();
    let Some(order) = Order::of(&words) else {
        eprintln!("usage: replay [--check | --into FOLDER] [PROGRAM ..]");
        return ExitCode::from(2);
    };
    let wanted = PROGRAMS.iter().filter(|program| order.wants(program));
    let failed = wanted.filter(|program| !order.carry_out(program)).count();
    ExitCode::from(u8::from(failed > 0))
}
