//! Has host/archives prove and build an archive, and shows how far it is.

use std::fs::{self, File, OpenOptions};
use std::io::{IsTerminal, Write};
use std::os::unix::fs::FileTypeExt;
use std::path::Path;
use std::process::{Command, Stdio};
use std::thread::sleep;
use std::time::{Duration, Instant};

use crate::fail;
use crate::sources::crates;

/// Cargo keeps what a build script prints to itself. Where its own standard error is a terminal or a pipe, lines
/// are written there as well.
struct Screen(Option<File>);

impl Screen {
    fn open() -> Screen {
        let stderr = format!("/proc/{}/fd/2", std::os::unix::process::parent_id());
        let shows =
            fs::metadata(&stderr).is_ok_and(|data| data.file_type().is_char_device() || data.file_type().is_fifo());
        let path = if shows { stderr.as_str() } else { "/dev/tty" };
        Screen(OpenOptions::new().write(true).open(path).ok().filter(|file| shows || file.is_terminal()))
    }

    fn line(&mut self, text: &str) {
        eprintln!("{text}");
        if let Some(file) = &mut self.0 {
            // Over cargo's own progress line.
            let clear = if file.is_terminal() { "\r\x1b[K" } else { "" };
            let _ = writeln!(file, "{clear}{text}");
        }
    }
}

/// How many crates are proved and which one is being proved, as rt's lines say.
fn noted(log: &Path) -> (usize, Option<String>) {
    let text = fs::read_to_string(log).unwrap_or_default();
    let proved = text.lines().filter(|line| line.starts_with("logic=proved ")).count();
    let being = text.lines().rev().find_map(|line| line.strip_prefix("rt: chose --jobs ")?.split_once(" for "));
    (proved, being.map(|(_, name)| name.to_string()))
}

fn minutes(time: Duration) -> String {
    format!("{}:{:02} min", time.as_secs() / 60, time.as_secs() % 60)
}

/// Has host/archives build an archive, and calls `look` with its log until it ends.
fn run(root: &Path, name: &str, mut look: impl FnMut(&Path)) {
    let log = Path::new(&std::env::var_os("OUT_DIR").expect("cargo's variable")).join("rt.log");
    let file = File::create(&log).expect("a file in OUT_DIR");
    let copy = file.try_clone().expect("a file in OUT_DIR");
    let mut script = Command::new(root.join("host/archives"));
    let script = script.arg(name).env("PYTHONUNBUFFERED", "1").stdin(Stdio::null()).stdout(file).stderr(copy);
    let mut child = script.spawn().unwrap_or_else(|e| fail(&format!("host/archives: {e}")));
    let status = loop {
        if let Some(status) = child.try_wait().expect("the script's end") {
            break status;
        }
        look(&log);
        sleep(Duration::from_millis(200));
    };
    if !status.success() {
        let said = fs::read_to_string(log).unwrap_or_default();
        fail(&format!(
            "host/archives {name}: {status}; XHCI_DEVICE_LIB_DIR can name a folder with the archives\n{said}"
        ));
    }
}

/// Proves what archives are made of, and builds them.
pub fn build(root: &Path, archives: &[&str]) {
    let mut screen = Screen::open();
    let (begun, count) = (Instant::now(), crates(root, archives).expect("crates.txt").len());
    screen.line(&format!("  Proving {}: {count} crates; the first time this takes minutes", archives.join(", ")));
    for name in archives {
        let mut shown = None;
        run(root, name, |log| {
            let (proved, being) = noted(log);
            if being.is_some() && being != shown {
                let (being, time) = (being.as_deref().unwrap_or_default(), minutes(begun.elapsed()));
                screen.line(&format!("  Proving {being}; for {name}, {proved} crates are proved so far ({time})"));
                shown = Some(being.to_string());
            }
        });
    }
    screen.line(&format!("  Proved {count} crates in {}", minutes(begun.elapsed())));
}
