//! Sends requests to a program, or to a server behind a loopback port, and takes the replies: `tools/bench silo` measures so what one
//! connection carries. Prints how many nanoseconds the requests took.
//!
//!   asker one|all REQUEST_LINES REPLY_LINES FIRST REQUESTS port PORT
//!   asker one|all REQUEST_LINES REPLY_LINES FIRST REQUESTS program PROGRAM WORD..
//!
//! REQUESTS is a file of requests, each of so many lines; each has a reply of so many lines. `one` waits for a reply before it sends the
//! next request, `all` sends while it takes replies. What FIRST has is sent before, and ends by a line that a program answers with `pong
//! ready`, if there is any.

use std::io::{self, Read, Write};
use std::net::TcpStream;
use std::process::{Child, Command, ExitCode, Stdio};
use std::time::Instant;
use std::{env, fs, thread};

struct Connection {
    reader: Box<dyn Read>,
    writer: Box<dyn Write + Send>,
    child: Option<Child>,
    bytes: Vec<u8>,
}

impl Connection {
    fn open(kind: &str, words: &[String]) -> io::Result<Connection> {
        let bytes = vec![0; 65_536];
        if kind == "port" {
            let stream = TcpStream::connect(("127.0.0.1", words[0].parse().map_err(io::Error::other)?))?;
            stream.set_nodelay(true)?;
            return Ok(Connection { reader: Box::new(stream.try_clone()?), writer: Box::new(stream), child: None, bytes });
        }
        let mut child = Command::new(&words[0]).args(&words[1..]).stdin(Stdio::piped()).stdout(Stdio::piped()).spawn()?;
        let (reader, writer) = child.stdout.take().zip(child.stdin.take()).ok_or(io::ErrorKind::BrokenPipe)?;
        Ok(Connection { reader: Box::new(reader), writer: Box::new(writer), child: Some(child), bytes })
    }

    /// Takes some bytes of replies.
    fn take(&mut self) -> io::Result<&[u8]> {
        let count = self.reader.read(&mut self.bytes)?;
        if count == 0 { Err(io::ErrorKind::UnexpectedEof.into()) } else { Ok(&self.bytes[..count]) }
    }

    fn take_lines(&mut self, mut lines: usize) -> io::Result<()> {
        while lines > 0 {
            lines = lines.saturating_sub(self.take()?.iter().filter(|byte| **byte == b'\n').count());
        }
        Ok(())
    }

    /// Sends while replies are taken.
    fn send(&mut self, bytes: &[u8], take: impl FnOnce(&mut Connection) -> io::Result<()>) -> io::Result<()> {
        let mut writer = std::mem::replace(&mut self.writer, Box::new(io::sink()));
        let sent = thread::scope(|scope| {
            let sender = scope.spawn(|| writer.write_all(bytes));
            take(self)?;
            sender.join().unwrap_or_else(|_| Err(io::ErrorKind::BrokenPipe.into()))
        });
        self.writer = writer;
        sent
    }

    fn take_ready(&mut self) -> io::Result<()> {
        let mut last = Vec::new();
        while !last.ends_with(b"pong ready\n") {
            let some = self.take()?;
            last.extend_from_slice(some);
            last.drain(..last.len().saturating_sub(16));
        }
        Ok(())
    }
}

/// Requests of so many lines each.
fn requests(bytes: &[u8], lines: usize) -> Vec<&[u8]> {
    let ends = bytes.iter().zip(1..).filter(|(byte, _)| **byte == b'\n').map(|(_, end)| end);
    let mut start = 0;
    let request = |end| {
        let request = &bytes[start..end];
        start = end;
        request
    };
    ends.skip(lines - 1).step_by(lines).map(request).collect()
}

fn ask(words: &[String]) -> io::Result<()> {
    let number = |word: &String| word.parse::<usize>().map_err(io::Error::other);
    let (request_lines, reply_lines) = (number(&words[1])?, number(&words[2])?);
    let (first, all) = (fs::read(&words[3])?, fs::read(&words[4])?);
    let requests = requests(&all, request_lines);
    let mut connection = Connection::open(&words[5], &words[6..])?;
    if !first.is_empty() {
        connection.send(&first, Connection::take_ready)?;
    }
    let start = Instant::now();
    if words[0] == "one" {
        for request in &requests {
            connection.writer.write_all(request)?;
            connection.take_lines(reply_lines)?;
        }
    } else {
        connection.send(&all, |connection| connection.take_lines(reply_lines * requests.len()))?;
    }
    println!("{}", start.elapsed().as_nanos());
    let Connection { writer, child, .. } = connection;
    drop(writer);
    child.map_or(Ok(()), |mut child| child.wait().map(drop))
}

fn main() -> ExitCode {
    let words: Vec<String> = env::args().skip(1).collect();
    if words.len() < 7 || !["one", "all"].contains(&&words[0][..]) || !["port", "program"].contains(&&words[5][..]) {
        eprintln!("usage: asker one|all REQUEST_LINES REPLY_LINES FIRST REQUESTS port|program WORD..");
        return ExitCode::from(2);
    }
    match ask(&words) {
        Ok(()) => ExitCode::SUCCESS,
        Err(error) => {
            eprintln!("asker: {error}");
            ExitCode::FAILURE
        }
    }
}
