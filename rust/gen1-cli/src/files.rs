//! Files and the standard streams.
use crate::fault::Fault;
use std::fs::{self, File};
use std::io::{self, BufRead, BufReader, Read, Write};
use std::path::{Path, PathBuf};

/// The maximum length of an input, and of a line of `play`, in bytes.
const LIMIT: u64 = 1_048_576;
/// The maximum length of a battle log, which may have the requests of each turn, in bytes.
const LOG_LIMIT: u64 = 16 * LIMIT;

/// A file; `None` for a standard stream, which `-` also means.
pub fn named(file: Option<&Path>) -> Option<&Path> {
    file.filter(|path| *path != Path::new("-"))
}

/// The name of an input in an explanation.
pub fn name_of(file: Option<&Path>) -> String {
    named(file).map_or("standard input".into(), |path| path.display().to_string())
}

/// Reads a file, or standard input if none is named.
pub fn read(file: Option<&Path>) -> Result<Vec<u8>, Fault> {
    read_up_to(LIMIT, file)
}

/// Reads a battle log from a file, or from standard input if none is named.
pub fn read_battle_log(file: Option<&Path>) -> Result<Vec<u8>, Fault> {
    read_up_to(LOG_LIMIT, file)
}

/// Reads the table of a solver; `None` if the file doesn't exist.
pub fn read_table(path: &Path) -> Result<Option<Vec<u8>>, Fault> {
    match fs::read(path) {
        Ok(bytes) => Ok(Some(bytes)),
        Err(why) if why.kind() == io::ErrorKind::NotFound => Ok(None),
        Err(why) => Err(Fault::read(&name_of(Some(path)), &why)),
    }
}

fn read_up_to(limit: u64, file: Option<&Path>) -> Result<Vec<u8>, Fault> {
    let mut input = Vec::new();
    let done = match named(file) {
        Some(path) => {
            File::open(path).and_then(|file| file.take(limit + 1).read_to_end(&mut input))
        }
        None => io::stdin().lock().take(limit + 1).read_to_end(&mut input),
    };
    done.map_err(|why| Fault::read(&name_of(file), &why))?;
    within(limit, input, file)
}

/// Reads a line of standard input, with its line feed if it has one; no bytes at the end of the input.
pub fn read_line() -> Result<Vec<u8>, Fault> {
    let mut line = Vec::new();
    let mut input = io::stdin().lock().take(LIMIT + 1);
    input
        .read_until(b'\n', &mut line)
        .map_err(|why| Fault::read(&name_of(None), &why))?;
    within(LIMIT, line, None)
}

/// Reads the lines of a file or of standard input, as many at a time as are available.
pub struct LineReader {
    name: String,
    length: Option<u64>,
    taken: u64,
    lines: u64,
    input: BufReader<Box<dyn Read>>,
}

/// How many bytes are read at once.
const PIECE: usize = 1 << 20;

impl LineReader {
    pub fn open(file: Option<&Path>) -> Result<LineReader, Fault> {
        let name = name_of(file);
        let opened = named(file).map(File::open).transpose();
        let opened = opened.map_err(|why| Fault::read(&name, &why))?;
        let length = opened.as_ref().and_then(|file| file.metadata().ok());
        let length = length.filter(|it| it.is_file()).map(|it| it.len());
        let input: Box<dyn Read> = match opened {
            Some(file) => Box::new(file),
            None => Box::new(io::stdin()),
        };
        let input = BufReader::with_capacity(PIECE, input);
        Ok(LineReader {
            name,
            length,
            taken: 0,
            lines: 0,
            input,
        })
    }

    /// The length of the input, if it is a file.
    pub fn length(&self) -> Option<u64> {
        self.length
    }

    /// How many bytes were read.
    pub fn taken(&self) -> u64 {
        self.taken
    }

    /// The next line, and the lines after it that are already in memory; none at the end. Line feeds are left out.
    pub fn next_lines(&mut self) -> Result<Vec<Vec<u8>>, Fault> {
        let mut lines = Vec::new();
        while lines.is_empty() || self.input.buffer().contains(&b'\n') {
            let Some(line) = self.next_line()? else {
                break;
            };
            lines.push(line);
        }
        Ok(lines)
    }

    fn next_line(&mut self) -> Result<Option<Vec<u8>>, Fault> {
        let mut line = Vec::new();
        let mut input = self.input.by_ref().take(LIMIT + 1);
        let count = input
            .read_until(b'\n', &mut line)
            .map_err(|why| Fault::read(&self.name, &why))?;
        self.taken += count as u64;
        self.lines += 1;
        if line.last() == Some(&b'\n') {
            line.pop();
        }
        match line.len() as u64 > LIMIT {
            true => {
                let place = format!("{}, line {}", self.name, self.lines);
                Err(Fault::too_long(&place, LIMIT))
            }
            false => Ok((count > 0).then_some(line)),
        }
    }
}

fn within(limit: u64, input: Vec<u8>, file: Option<&Path>) -> Result<Vec<u8>, Fault> {
    if input.len() as u64 > limit {
        return Err(Fault::too_long(&name_of(file), limit));
    }
    Ok(input)
}

/// Writes a text or bytes to standard output at once.
pub fn put(text: impl AsRef<[u8]>) -> Result<(), Fault> {
    put_all([text])
}

/// Writes texts to standard output, one after the other.
pub fn put_all<T: AsRef<[u8]>>(texts: impl IntoIterator<Item = T>) -> Result<(), Fault> {
    let mut out = io::stdout().lock();
    for text in texts {
        let text = text.as_ref();
        if !text.is_empty() {
            is_open()?;
            out.write_all(text).map_err(|why| unwritten(&why))?;
        }
    }
    out.flush().map_err(|why| unwritten(&why))
}

/// An error of standard output.
pub fn unwritten(why: &io::Error) -> Fault {
    Fault::write("standard output", why)
}

/// Refuses a standard output that was closed when the program started.
pub fn is_open() -> Result<(), Fault> {
    if crate::closed::is_closed() {
        return Err(unwritten(&io::Error::other("it is closed")));
    }
    Ok(())
}

/// Writes a file completely or not at all: to a new file next to it, which is then renamed.
///
/// A pipe, a device, or anything else that is not a regular file is written to directly.
pub fn replace(path: &Path, text: &[u8]) -> Result<(), Fault> {
    let failed = |why: io::Error| Fault::write(&path.display().to_string(), &why);
    // A symbolic link is kept: its target is written.
    let target = fs::canonicalize(path).unwrap_or(path.into());
    let old = fs::metadata(&target).ok();
    if old.as_ref().is_some_and(|old| !old.is_file()) {
        return fs::write(&target, text).map_err(failed);
    }
    let beside = name_beside(&target);
    let mut file = File::create_new(&beside).map_err(failed)?;
    let mut written = || {
        file.write_all(text)?;
        file.sync_all()?;
        if let Some(old) = &old {
            fs::set_permissions(&beside, old.permissions())?;
        }
        fs::rename(&beside, &target)
    };
    written().map_err(|why| {
        // The error that is reported is the first one.
        let _ = fs::remove_file(&beside);
        failed(why)
    })
}

/// A name in the folder of a file, unique to this process.
fn name_beside(path: &Path) -> PathBuf {
    let mut name = path.as_os_str().to_owned();
    name.push(format!(".{}.part", std::process::id()));
    name.into()
}
