//! A QEMU whose processor is this program: over the qtest socket it reads and writes memory, ports and registers.

use std::fs;
use std::io::{self, BufRead, BufReader, Write};
use std::os::unix::net::{UnixListener, UnixStream};
use std::path::{Path, PathBuf};
use std::process::{Child, Command, Stdio};
use std::sync::atomic::{AtomicU32, Ordering};
use std::thread::sleep;
use std::time::{Duration, Instant};

/// The program, or what the variable QEMU names.
pub fn program() -> String {
    std::env::var("QEMU").unwrap_or_else(|_| "qemu-system-x86_64".into())
}

/// The first line of the program's --version. None where there is no such program.
pub fn version() -> Option<String> {
    let output = Command::new(program()).arg("--version").output().ok()?;
    String::from_utf8(output.stdout).ok()?.lines().next().map(str::to_string)
}

/// How long QEMU may take to answer.
const PATIENCE: Duration = Duration::from_secs(60);

pub struct Machine {
    child: Child,
    watch: Child,
    qtest: BufReader<UnixStream>,
    monitor: BufReader<UnixStream>,
    folder: PathBuf,
}

/// A firmware of 64 KiB that only halts; the reset vector is 16 bytes before its end.
fn firmware() -> Vec<u8> {
    const CLI_HLT_JMP: [u8; 4] = [0xFA, 0xF4, 0xEB, 0xFD];
    let mut image = vec![0xF4; 0x1_0000];
    image[0xFFF0..0xFFF4].copy_from_slice(&CLI_HLT_JMP);
    image
}

/// Ends QEMU where this program is killed: then the pipe is closed.
fn watch(child: &Child, folder: &Path) -> io::Result<Child> {
    const SCRIPT: &str = "read -r _; kill \"$1\"; rm -rf \"$2\"";
    Command::new("sh")
        .args(["-c", SCRIPT, "watch", &child.id().to_string(), &folder.display().to_string()])
        .stdin(Stdio::piped())
        .stderr(Stdio::null())
        .spawn()
}

fn end(children: [&mut Child; 2]) {
    for child in children {
        let _ = child.kill();
        let _ = child.wait();
    }
}

/// Waits until QEMU connects.
fn accept(listener: &UnixListener, child: &mut Child) -> io::Result<BufReader<UnixStream>> {
    listener.set_nonblocking(true)?;
    let begun = Instant::now();
    loop {
        if let Ok((stream, _)) = listener.accept() {
            stream.set_nonblocking(false)?;
            stream.set_read_timeout(Some(PATIENCE))?;
            return Ok(BufReader::new(stream));
        }
        if let Some(status) = child.try_wait()? {
            return Err(io::Error::other(format!("QEMU ended, {status}")));
        }
        if begun.elapsed() > PATIENCE {
            return Err(io::Error::other("QEMU does not connect"));
        }
        sleep(Duration::from_millis(2));
    }
}

impl Machine {
    /// A machine with QEMU's xHCI controller and these devices.
    pub fn start(devices: &[&str]) -> io::Result<Machine> {
        static STARTED: AtomicU32 = AtomicU32::new(0);
        let number = STARTED.fetch_add(1, Ordering::Relaxed);
        let folder = std::env::temp_dir().join(format!("qemu-{}-{number}", std::process::id()));
        fs::create_dir_all(&folder)?;
        let file = |name: &str| folder.join(name);
        fs::write(file("firmware"), firmware())?;
        // QEMU connects to these, so they listen before it is started.
        let (qtest, monitor) = (UnixListener::bind(file("qtest"))?, UnixListener::bind(file("monitor"))?);
        let mut child = Command::new(program())
            .args(["-machine", "pc", "-accel", "tcg", "-m", "64", "-nodefaults", "-display", "none"])
            .args(["-bios", &file("firmware").display().to_string()])
            .args(["-qtest-log", "/dev/null", "-qtest", &format!("unix:{}", file("qtest").display())])
            .args(["-chardev", &format!("socket,id=monitor,path={}", file("monitor").display())])
            .args(["-mon", "chardev=monitor,mode=control"])
            .args(["-d", "guest_errors,unimp", "-D", &file("errors").display().to_string()])
            .args(["-device", "qemu-xhci,addr=4"])
            .args(devices)
            .stdin(Stdio::null())
            .stderr(fs::File::create(file("stderr"))?)
            .spawn()?;
        let mut watch = watch(&child, &folder)?;
        let accepted = accept(&monitor, &mut child).and_then(|monitor| Ok((monitor, accept(&qtest, &mut child)?)));
        match accepted {
            Ok((monitor, qtest)) => {
                let mut machine = Machine { child, watch, qtest, monitor, folder };
                machine.monitor.read_line(&mut String::new())?;
                machine.monitor("{\"execute\":\"qmp_capabilities\"}");
                Ok(machine)
            }
            Err(error) => {
                end([&mut watch, &mut child]);
                let said = fs::read_to_string(file("stderr")).unwrap_or_default();
                let _ = fs::remove_dir_all(&folder);
                Err(io::Error::other(format!("{error}\n{said}")))
            }
        }
    }

    /// A command of QEMU's monitor; its answer. Events in between are passed over.
    pub fn monitor(&mut self, command: &str) -> String {
        writeln!(self.monitor.get_mut(), "{command}").expect("the monitor listens");
        loop {
            let mut line = String::new();
            self.monitor.read_line(&mut line).expect("the monitor answers");
            assert!(!line.is_empty(), "the monitor is closed");
            assert!(!line.contains("\"error\""), "{command}: {line}");
            if line.contains("\"return\"") {
                return line;
            }
        }
    }

    fn ask(&mut self, command: &str) -> String {
        self.qtest.get_mut().write_all(format!("{command}\n").as_bytes()).expect("QEMU listens");
        loop {
            let mut line = String::new();
            self.qtest.read_line(&mut line).expect("QEMU answers");
            if let Some(rest) = line.strip_prefix("OK") {
                return rest.trim().to_string();
            }
            assert!(line.starts_with("IRQ"), "{command}: {line:?}");
        }
    }

    fn number(&mut self, command: &str) -> u32 {
        let answer = self.ask(command);
        u64::from_str_radix(answer.trim_start_matches("0x"), 16).expect("a number") as u32
    }

    pub fn register(&mut self, address: u64) -> u32 {
        self.number(&format!("readl {address:#x}"))
    }

    pub fn set_register(&mut self, address: u64, value: u32) {
        self.ask(&format!("writel {address:#x} {value:#x}"));
    }

    /// A register of 64 bits, the low half first.
    pub fn set_register64(&mut self, address: u64, value: u64) {
        self.set_register(address, value as u32);
        self.set_register(address + 4, (value >> 32) as u32);
    }

    pub fn read(&mut self, address: u64, length: usize) -> Vec<u8> {
        let answer = self.ask(&format!("read {address:#x} {length:#x}"));
        let digit = |digit: u8| (digit as char).to_digit(16).expect("a digit") as u8;
        answer.as_bytes()[2..].chunks(2).map(|pair| digit(pair[0]) << 4 | digit(pair[1])).collect()
    }

    pub fn write(&mut self, address: u64, bytes: &[u8]) {
        let digits: String = bytes.iter().map(|byte| format!("{byte:02x}")).collect();
        self.ask(&format!("write {address:#x} {:#x} 0x{digits}", bytes.len()));
    }

    /// A doubleword of a PCI device's configuration.
    pub fn pci(&mut self, device: u32, register: u32) -> u32 {
        self.ask(&format!("outl 0xcf8 {:#x}", 0x8000_0000 | device << 11 | register));
        self.number("inl 0xcfc")
    }

    pub fn set_pci(&mut self, device: u32, register: u32, value: u32) {
        self.ask(&format!("outl 0xcf8 {:#x}", 0x8000_0000 | device << 11 | register));
        self.ask(&format!("outl 0xcfc {value:#x}"));
    }

    /// What QEMU has to say of its guest, so far.
    pub fn errors(&self) -> String {
        fs::read_to_string(self.folder.join("errors")).unwrap_or_default()
    }
}

impl Drop for Machine {
    fn drop(&mut self) {
        end([&mut self.watch, &mut self.child]);
        let _ = fs::remove_dir_all(&self.folder);
    }
}
