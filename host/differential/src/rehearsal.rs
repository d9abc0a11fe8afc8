//! The program `rehearse` as a process: in a folder of its own, its input written part by part, what it prints read as it comes. A
//! program that keeps us waiting for a minute fails.

use std::io::{ErrorKind, Read, Write};
use std::os::raw::{c_int, c_ulong};
use std::os::unix::io::AsRawFd;
use std::path::PathBuf;
use std::process::{Child, ChildStdin, Command, Stdio};
use std::sync::atomic::{AtomicU32, Ordering};
use std::sync::mpsc::{channel, Receiver, RecvTimeoutError};
use std::time::{Duration, Instant};

const PATIENCE: Duration = Duration::from_secs(60);

/// The program: `rt ci` makes it, and so does `rt run` in crates/rehearse. CISHMOLAQ_REHEARSE names another.
pub fn program() -> PathBuf {
    let made = PathBuf::from(env!("CARGO_MANIFEST_DIR")).join("../../crates/rehearse/out/rehearse");
    let program = std::env::var_os("CISHMOLAQ_REHEARSE").map_or(made, PathBuf::from);
    assert!(program.is_file(), "{} is missing: run `rt run` in crates/rehearse first", program.display());
    program.canonicalize().unwrap()
}

/// What `lib.txt` is.
#[derive(Clone, Copy)]
pub enum Lib<'a> {
    Text(&'a [u8]),
    Missing,
    Folder,
}

/// A folder with nothing but `lib.txt`, which goes with its value.
pub struct Folder(pub PathBuf);

impl Folder {
    pub fn with(lib: Lib) -> Folder {
        static COUNT: AtomicU32 = AtomicU32::new(0);
        let name = format!("cishmolaq-{}-{}", std::process::id(), COUNT.fetch_add(1, Ordering::Relaxed));
        let folder = std::env::temp_dir().join(name);
        std::fs::create_dir(&folder).unwrap_or_else(|e| panic!("{}: {e}", folder.display()));
        let path = folder.join("lib.txt");
        match lib {
            Lib::Text(text) => std::fs::write(path, text).unwrap(),
            Lib::Folder => std::fs::create_dir(path).unwrap(),
            Lib::Missing => {}
        }
        Folder(folder)
    }
}

impl Drop for Folder {
    fn drop(&mut self) {
        let _ = std::fs::remove_dir_all(&self.0);
    }
}

// The C library's, for the one request below.
extern "C" {
    fn ioctl(descriptor: c_int, request: c_ulong, ...) -> c_int;
}

/// Linux's request for the bytes that lie in a pipe.
const FIONREAD: c_ulong = 0x541b;

/// How many bytes written to a pipe its reader has not taken yet.
fn untaken(pipe: &impl AsRawFd) -> c_int {
    let mut count: c_int = 0;
    // FIONREAD stores one int, at a place that outlives the call.
    let answer = unsafe { ioctl(pipe.as_raw_fd(), FIONREAD, &mut count as *mut c_int) };
    assert_eq!(answer, 0, "FIONREAD: {}", std::io::Error::last_os_error());
    count
}

/// The most memory that a process has had at once, in KiB.
pub fn peak(process: &Child) -> Option<u64> {
    let status = std::fs::read_to_string(format!("/proc/{}/status", process.id())).ok()?;
    let line = status.lines().find_map(|line| line.strip_prefix("VmHWM:"))?;
    line.trim().strip_suffix(" kB")?.parse().ok()
}

/// A program at work.
pub struct Run {
    child: Child,
    /// None once the input has ended.
    input: Option<ChildStdin>,
    output: Receiver<Vec<u8>>,
    printed: Vec<u8>,
    /// How much of what is printed was given as lines.
    given: usize,
    _folder: Folder,
}

impl Run {
    pub fn start(lib: Lib) -> Run {
        let folder = Folder::with(lib);
        let mut command = Command::new(program());
        command.current_dir(&folder.0).stdin(Stdio::piped()).stdout(Stdio::piped()).stderr(Stdio::piped());
        let mut child = command.spawn().unwrap_or_else(|e| panic!("{command:?}: {e}"));
        let (input, mut from) = (child.stdin.take(), child.stdout.take().unwrap());
        let (send, output) = channel();
        std::thread::spawn(move || {
            let mut part = vec![0; 65_536];
            while let Ok(size @ 1..) = from.read(&mut part) {
                if send.send(part[..size].to_vec()).is_err() {
                    break;
                }
            }
        });
        Run { child, input, output, printed: Vec::new(), given: 0, _folder: folder }
    }

    /// Writes a part of the input and waits until the program has taken it. A program that has ended takes nothing more.
    pub fn write(&mut self, part: &[u8]) {
        let input = self.input.as_mut().unwrap();
        // So many bytes fit into an empty pipe: no write waits.
        for part in part.chunks(4_096) {
            match input.write_all(part) {
                Err(e) if e.kind() == ErrorKind::BrokenPipe => return,
                written => written.unwrap(),
            }
            let from = Instant::now();
            while untaken(input) > 0 && self.child.try_wait().unwrap().is_none() {
                assert!(from.elapsed() < PATIENCE, "the program does not read its input");
                std::thread::sleep(Duration::from_micros(20));
            }
        }
    }

    /// Waits for more of what is printed; false where there is no more.
    fn more(&mut self) -> bool {
        match self.output.recv_timeout(PATIENCE) {
            Ok(part) => self.printed.extend(part),
            Err(RecvTimeoutError::Disconnected) => return false,
            Err(RecvTimeoutError::Timeout) => panic!("nothing more is printed after {}", String::from_utf8_lossy(&self.printed)),
        }
        true
    }

    /// The next line that is printed, LF included.
    pub fn line(&mut self) -> String {
        loop {
            let rest = &self.printed[self.given..];
            if let Some(end) = rest.iter().position(|&b| b == b'\n') {
                let line = String::from_utf8_lossy(&rest[..=end]).into_owned();
                self.given += end + 1;
                return line;
            }
            assert!(self.more(), "the program ended before its next line");
        }
    }

    /// The most memory that the program has had so far, in KiB.
    pub fn peak(&self) -> u64 {
        peak(&self.child).expect("a program at work")
    }

    /// Ends the input: all that was printed. The program ends well and says nothing else.
    pub fn end(mut self) -> Vec<u8> {
        self.input = None;
        while self.more() {}
        let mut said = String::new();
        self.child.stderr.take().unwrap().read_to_string(&mut said).unwrap();
        let status = self.child.wait().unwrap();
        assert!(status.success() && said.is_empty(), "the program ends with {status} and says {said:?}");
        std::mem::take(&mut self.printed)
    }
}

/// What the program prints for an input that is written in these parts.
pub fn printed_in_parts<'a>(lib: Lib, parts: impl IntoIterator<Item = &'a [u8]>) -> Vec<u8> {
    let mut run = Run::start(lib);
    for part in parts {
        run.write(part);
    }
    run.end()
}

/// What the program prints.
pub fn printed(lib: Lib, calls: &[u8]) -> Vec<u8> {
    printed_in_parts(lib, [calls])
}

impl Drop for Run {
    fn drop(&mut self) {
        let _ = self.child.kill();
        let _ = self.child.wait();
    }
}
