//! The directory as a small TCP service: a thread for each connection, cells in memory behind a lock for each node.
//!
//! `serve NETWORK [--port N] [--record FILE] [--plain]` listens on loopback, writes `listening PORT`, and ends by SIGINT or
//! SIGTERM. One line comes, one line goes: `new NODE` answers `sub N`; `move SUB NODE`, `off SUB` and `on SUB` answer `ok`;
//! `find FROM SUB` answers `at NODE`, `off NODE` or `again WHY`; what can't be done answers `refused CAUSE`; `quit` ends the
//! connection. Calls of one subscriber go one after another. With `--record` the end writes FILE, an input whose order is
//! that of the visits, and FILE.seen, the lines that its replay has to have but for the weights of moves. With `--plain` one
//! map behind one lock takes the directory's place, to compare with.
use std::io::{self, BufRead, BufReader, Read, Write};
use std::net::{Ipv4Addr, Shutdown, TcpListener, TcpStream};
use std::sync::atomic::{AtomicBool, Ordering::SeqCst};
use std::sync::{Arc, Mutex, MutexGuard};
use std::time::Duration;
use std::{env, fs, process, thread};

use track::Plan;

#[path = "serve/cells.rs"]
mod cells;
#[path = "serve/plain.rs"]
mod plain;
#[path = "serve/protocol.rs"]
mod protocol;
#[path = "serve/record.rs"]
mod record;

use cells::Directory;
use plain::PlainMap;
use protocol::{Reply, Request, Service};

/// A line has at most so many bytes, its end with it.
const LONGEST_LINE: u64 = 64;
/// So many connections are served at once, and may be recorded in all: an input has no more callers.
const MOST_CALLERS: usize = 64;
/// Who says nothing for so long is left.
const PATIENCE: Duration = Duration::from_secs(600);

static ENDING: AtomicBool = AtomicBool::new(false);

extern "C" fn end(_: i32) {
    ENDING.store(true, SeqCst);
}

extern "C" {
    fn signal(number: i32, handler: extern "C" fn(i32)) -> usize;
}

/// A lock that is never left broken: no code that holds one panics.
fn lock<T>(mutex: &Mutex<T>) -> MutexGuard<'_, T> {
    mutex.lock().unwrap_or_else(|broken| broken.into_inner())
}

/// Serves one client until it goes, quits, is silent for too long, or sends a line that is too long.
fn attend(service: &dyn Service, caller: usize, stream: &TcpStream) -> io::Result<()> {
    stream.set_read_timeout(Some(PATIENCE))?;
    stream.set_write_timeout(Some(PATIENCE))?;
    stream.set_nodelay(true)?;
    let (mut reader, mut writer) = (BufReader::new(stream), stream);
    let mut line = Vec::new();
    loop {
        line.clear();
        (&mut reader)
            .take(LONGEST_LINE)
            .read_until(b'\n', &mut line)?;
        let Some(line) = line.strip_suffix(b"\n") else {
            return if line.is_empty() {
                Ok(())
            } else {
                writer.write_all(b"refused line\n")
            };
        };
        let reply = match std::str::from_utf8(line).ok().and_then(Request::read) {
            Some(Request::Quit) => return Ok(()),
            Some(request) => service.serve(caller, request),
            None => Reply::Refused("line"),
        };
        writer.write_all(format!("{reply}\n").as_bytes())?;
    }
}

/// Which callers' numbers are free, and the streams of those that are in use.
struct Callers {
    streams: Vec<Option<TcpStream>>,
    is_recorded: bool,
    count: usize,
}

impl Callers {
    /// The number of a further caller. Of a record none is used again, since a caller's finds come one after another.
    fn number(&mut self, stream: &TcpStream) -> Option<usize> {
        let number = if self.is_recorded {
            (self.count < MOST_CALLERS).then_some(self.count)?
        } else {
            self.streams.iter().position(Option::is_none)?
        };
        self.count += 1;
        self.streams[number] = Some(stream.try_clone().ok()?);
        Some(number)
    }
}

/// Takes connections until a signal comes, and then ends those that there are.
fn listen(listener: &TcpListener, service: &Arc<dyn Service>, is_recorded: bool) -> io::Result<()> {
    listener.set_nonblocking(true)?;
    let streams = (0..MOST_CALLERS).map(|_| None).collect();
    let callers = Arc::new(Mutex::new(Callers {
        streams,
        is_recorded,
        count: 0,
    }));
    let mut threads = Vec::new();
    while !ENDING.load(SeqCst) {
        let Ok((stream, _)) = listener.accept() else {
            thread::sleep(Duration::from_millis(5));
            continue;
        };
        stream.set_nonblocking(false)?;
        let Some(caller) = lock(&callers).number(&stream) else {
            let _ = (&stream).write_all(b"refused full\n");
            continue;
        };
        let (service, callers) = (Arc::clone(service), Arc::clone(&callers));
        threads.retain(|it: &thread::JoinHandle<()>| !it.is_finished());
        threads.push(thread::spawn(move || {
            // A client that is gone is nobody's fault.
            let _ = attend(service.as_ref(), caller, &stream);
            lock(&callers).streams[caller] = None;
        }));
    }
    for stream in lock(&callers).streams.iter().flatten() {
        let _ = stream.shutdown(Shutdown::Both);
    }
    for it in threads {
        let _ = it.join();
    }
    Ok(())
}

/// The lines of a network's text that an input begins with: those before its first subscriber.
fn network_of(text: &str) -> String {
    let is_network = |line: &&str| !line.starts_with("sub ") && !line.starts_with("callers ");
    let lines =
        text.lines()
            .take_while(is_network)
            .map(|line| if line == "track 1" { "track 2" } else { line });
    lines.fold(String::new(), |mut all, line| {
        all.push_str(line);
        all.push('\n');
        all
    })
}

struct Options {
    network: String,
    port: u16,
    record: Option<String>,
    plain: bool,
}

fn options() -> Option<Options> {
    let mut words = env::args().skip(1);
    let mut told = Options {
        network: words.next()?,
        port: 0,
        record: None,
        plain: false,
    };
    while let Some(word) = words.next() {
        match word.as_str() {
            "--port" => told.port = words.next()?.parse().ok()?,
            "--record" => told.record = Some(words.next()?),
            "--plain" => told.plain = true,
            _ => return None,
        }
    }
    (!(told.plain && told.record.is_some())).then_some(told)
}

fn run(told: &Options) -> Result<(), Box<dyn std::error::Error>> {
    let text = fs::read_to_string(&told.network)?;
    let plan = Plan::read(text.as_bytes())?;
    // SAFETY: the handler stores into an atomic alone.
    for number in [2, 15] {
        unsafe { signal(number, end) };
    }
    let listener = TcpListener::bind((Ipv4Addr::LOCALHOST, told.port))?;
    println!("listening {}", listener.local_addr()?.port());
    io::stdout().flush()?;
    if told.plain {
        let service: Arc<dyn Service> = Arc::new(PlainMap {
            nodes: plan.nodes(),
            places: Mutex::default(),
        });
        return Ok(listen(&listener, &service, false)?);
    }
    let directory = Arc::new(Directory::new(plan, told.record.is_some()));
    let service: Arc<dyn Service> = directory.clone();
    listen(&listener, &service, told.record.is_some())?;
    if let (Some(path), Some(record)) = (&told.record, &directory.record) {
        let (input, seen) = record.texts(&network_of(&text));
        fs::write(path, input)?;
        fs::write(format!("{path}.seen"), seen)?;
    }
    Ok(())
}

fn main() {
    let Some(told) = options() else {
        eprintln!("usage: serve NETWORK [--port N] [--record FILE | --plain]");
        process::exit(2);
    };
    if let Err(error) = run(&told) {
        eprintln!("serve: {error}");
        process::exit(1);
    }
}
