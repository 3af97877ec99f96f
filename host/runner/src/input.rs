//! A file of scenarios and cases, run line by line.

use std::io::{self, BufRead, Write};

use scenario::{Event, Malformed, Reader, Session};

use crate::answers::Answers;

/// Why a run ends before its time.
pub enum Ends {
    /// Nobody reads what is printed any more.
    Unread,
    Wrong(String),
}

/// Marks at the beginning of a file that some editors write.
const MARKS: [(&[u8], &str); 3] = [
    (b"\xEF\xBB\xBF", "the file begins with a byte order mark; save it as UTF-8 without one"),
    (b"\xFF\xFE", "the file is UTF-16; save it as UTF-8"),
    (b"\xFE\xFF", "the file is UTF-16; save it as UTF-8"),
];

/// The lines of a file, and the reader that they go through.
struct Lines<'a, Input> {
    name: &'a str,
    input: Input,
    reader: Reader,
}

impl<Input: BufRead> Lines<'_, Input> {
    fn wrong(&self, malformed: Malformed) -> Ends {
        Ends::Wrong(malformed.in_file(self.name))
    }

    fn unreadable(&self, e: io::Error) -> Ends {
        self.wrong(self.reader.malformed(e.to_string()))
    }

    fn begin(&mut self) -> Result<(), Ends> {
        let first = self.input.fill_buf().map_err(|e| e.to_string());
        let found = first.map(|first| MARKS.iter().find(|(mark, _)| first.starts_with(mark)));
        match found {
            Ok(None) => Ok(()),
            Ok(Some((_, message))) => Err(self.wrong(self.reader.malformed(message.to_string()))),
            Err(message) => Err(self.wrong(self.reader.malformed(message))),
        }
    }

    /// What the next line completes. None: there is none.
    fn next(&mut self) -> Result<Option<Option<Event>>, Ends> {
        let mut line = Vec::new();
        let read = self.input.read_until(b'\n', &mut line).map_err(|e| self.unreadable(e))?;
        if read == 0 {
            return self.reader.finish().map(|()| None).map_err(|malformed| self.wrong(malformed));
        }
        let event = self.reader.line(&String::from_utf8_lossy(&line));
        event.map(Some).map_err(|malformed| self.wrong(malformed))
    }
}

fn write(out: &mut impl Write, text: &str) -> Result<(), Ends> {
    out.write_all(text.as_bytes()).map_err(unwritten)
}

fn unwritten(e: io::Error) -> Ends {
    if e.kind() == io::ErrorKind::BrokenPipe { Ends::Unread } else { Ends::Wrong(format!("standard output: {e}")) }
}

/// Runs what is in a file of a name.
pub fn run(name: &str, input: impl BufRead, answers: &mut Answers, out: &mut impl Write) -> Result<(), Ends> {
    let mut lines = Lines { name, input, reader: Reader::new() };
    lines.begin()?;
    let (mut session, mut desk) = (Session::new(), None);
    let mut empty = true;
    while let Some(event) = lines.next()? {
        let mut text = String::new();
        empty &= event.is_none();
        match event {
            Some(Event::Begin(name)) => {
                session = Session::new();
                text = answers.title(&name);
            }
            Some(Event::Call(step)) => answers.call(&mut session, *step, &mut text),
            Some(Event::Dispatcher) => desk = answers.desk(),
            Some(Event::Submit(submission)) => answers.submit(desk.as_mut(), *submission, &mut text),
            Some(Event::Turn) => answers.turn(desk.as_mut(), &mut text),
            Some(Event::Case(case)) => answers.case(&case, &mut text),
            Some(Event::End) | None => {}
        }
        write(out, &text)?;
    }
    out.flush().map_err(unwritten)?;
    match empty {
        true => {
            Err(lines.wrong(lines.reader.malformed("there is neither a scenario nor a case in the file".to_string())))
        }
        false => Ok(()),
    }
}
