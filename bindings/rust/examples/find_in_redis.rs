//! Finds subscribers of a directory over Redis that `examples/store` has set up, by the protocol over std alone: one connection
//! a server for each thread, one command a look.
//!
//! `find_in_redis NETWORK NAME SUBS THREADS FINDS HOST:PORT=GENERATION..` makes FINDS finds in each thread, each from a drawn
//! node of a drawn subscriber below SUBS, and makes a find again that has to be. It writes how many found one that is on, one
//! that is off, or none (its opening hasn't come to its end), how many were made again, and how long they took.
use std::io::{self, BufRead, BufReader, Read, Write};
use std::net::TcpStream;
use std::sync::Arc;
use std::time::{Duration, Instant};
use std::{env, fmt, fs, process, thread};

use track::{Cell, Outcome, Plan};

/// A request waits so long for its answer.
const PATIENCE: Duration = Duration::from_secs(2);

/// Why a find can't go on.
#[derive(Debug)]
enum Failure {
    /// A server isn't there, or doesn't answer in time.
    Unreachable(io::Error),
    /// A server has no data, or another's.
    NoData(String),
    /// A server answers something else than the values of two keys.
    Answer(String),
    /// A cell holds what is no word.
    BadCell(Cell),
    /// A call of the library is refused.
    Track(track::Error),
}

impl fmt::Display for Failure {
    fn fmt(&self, f: &mut fmt::Formatter<'_>) -> fmt::Result {
        match self {
            Self::Unreachable(error) => write!(f, "no answer: {error}"),
            Self::NoData(address) => write!(f, "{address} has no data, or another's"),
            Self::Answer(line) => write!(f, "a server answers {line}"),
            Self::BadCell(cell) => write!(f, "{cell} holds what is no word"),
            Self::Track(error) => write!(f, "{error}"),
        }
    }
}

impl From<io::Error> for Failure {
    fn from(error: io::Error) -> Self {
        Self::Unreachable(error)
    }
}

impl From<track::Error> for Failure {
    fn from(error: track::Error) -> Self {
        Self::Track(error)
    }
}

/// A connection to one server, which knows the generation of its data.
struct Server {
    address: String,
    generation: String,
    stream: BufReader<TcpStream>,
}

impl Server {
    /// By `HOST:PORT=GENERATION`.
    fn connect(said: &str) -> Result<Self, Failure> {
        let (address, generation) = said.split_once('=').unwrap_or((said, ""));
        let stream = TcpStream::connect(address)?;
        stream.set_nodelay(true)?;
        stream.set_read_timeout(Some(PATIENCE))?;
        stream.set_write_timeout(Some(PATIENCE))?;
        Ok(Self {
            address: address.to_owned(),
            generation: generation.to_owned(),
            stream: BufReader::new(stream),
        })
    }

    /// The value of a key, read at once with the server's generation.
    fn read(&mut self, name: &str, key: &str) -> Result<Option<Vec<u8>>, Failure> {
        let guard = format!("{name}:generation");
        let request = format!(
            "*3\r\n$4\r\nMGET\r\n${}\r\n{guard}\r\n${}\r\n{key}\r\n",
            guard.len(),
            key.len()
        );
        self.stream.get_mut().write_all(request.as_bytes())?;
        let head = self.line()?;
        if head != "*2" {
            return Err(Failure::Answer(head));
        }
        let (generation, value) = (self.value()?, self.value()?);
        if generation.as_deref() != Some(self.generation.as_bytes()) {
            return Err(Failure::NoData(self.address.clone()));
        }
        Ok(value)
    }

    fn line(&mut self) -> Result<String, Failure> {
        let mut line = String::new();
        if self.stream.read_line(&mut line)? == 0 {
            return Err(io::Error::from(io::ErrorKind::UnexpectedEof).into());
        }
        Ok(line.trim_end().to_owned())
    }

    fn value(&mut self) -> Result<Option<Vec<u8>>, Failure> {
        let head = self.line()?;
        if head == "$-1" {
            return Ok(None);
        }
        let length = head.strip_prefix('$').and_then(|it| it.parse().ok());
        let Some(length) = length else {
            return Err(Failure::Answer(head));
        };
        let mut value = vec![0; length];
        self.stream.read_exact(&mut value)?;
        self.line()?;
        Ok(Some(value))
    }
}

/// The servers of a directory; a node's cells are at one of them.
struct Directory {
    name: String,
    servers: Vec<Server>,
}

impl Directory {
    fn connect(name: &str, said: &[String]) -> Result<Self, Failure> {
        Ok(Self {
            name: name.to_owned(),
            servers: said
                .iter()
                .map(|it| Server::connect(it))
                .collect::<Result<_, _>>()?,
        })
    }

    fn read(&mut self, number: u32, key: &str) -> Result<Option<Vec<u8>>, Failure> {
        let at = number as usize % self.servers.len();
        self.servers[at].read(&self.name, &format!("{}:{key}", self.name))
    }

    fn is_open(&mut self, sub: u32) -> Result<bool, Failure> {
        Ok(self.read(sub, &format!("open:{sub}"))?.is_some())
    }

    fn look(&mut self, cell: Cell) -> Result<u64, Failure> {
        let value = self.read(cell.node(), &format!("cell:{cell}"))?;
        let digits = value.as_deref().unwrap_or(b"0");
        let word = std::str::from_utf8(digits)
            .ok()
            .and_then(|it| it.parse().ok());
        word.ok_or(Failure::BadCell(cell))
    }
}

/// What the finds of a thread came to.
#[derive(Default)]
struct Counts {
    on: usize,
    off: usize,
    unknown: usize,
    again: usize,
    times: Vec<Duration>,
}

/// Numbers that look drawn (xorshift).
struct Draws(u64);

impl Draws {
    fn below(&mut self, bound: u32) -> u32 {
        self.0 ^= self.0 << 13;
        self.0 ^= self.0 >> 7;
        self.0 ^= self.0 << 17;
        (self.0 % u64::from(bound)) as u32
    }
}

/// One find, made again while it has to be.
fn find(
    plan: &Plan,
    directory: &mut Directory,
    from: u32,
    sub: u32,
    counts: &mut Counts,
) -> Result<(), Failure> {
    if !directory.is_open(sub)? {
        counts.unknown += 1;
        return Ok(());
    }
    loop {
        match plan
            .find(from, sub)?
            .run(|cell| directory.look(cell))?
            .outcome
        {
            Outcome::At { off: false, .. } => counts.on += 1,
            Outcome::At { off: true, .. } => counts.off += 1,
            Outcome::Again(_) => {
                counts.again += 1;
                continue;
            }
        }
        return Ok(());
    }
}

/// What the command line says, but for the network.
struct Said {
    name: String,
    subs: u32,
    threads: usize,
    finds: usize,
    servers: Vec<String>,
}

fn read_words(words: &[String]) -> Option<(Plan, Said)> {
    let [network, name, subs, threads, finds, servers @ ..] = words else {
        return None;
    };
    let said = Said {
        name: name.clone(),
        subs: subs.parse().ok().filter(|it| *it > 0)?,
        threads: threads.parse().ok()?,
        finds: finds.parse().ok()?,
        servers: (!servers.is_empty()).then(|| servers.to_vec())?,
    };
    Some((Plan::read(&fs::read(network).ok()?).ok()?, said))
}

fn run_thread(said: &Said, plan: &Plan, number: usize) -> Result<Counts, Failure> {
    let mut directory = Directory::connect(&said.name, &said.servers)?;
    let mut draws = Draws(0x9e37_79b9_7f4a_7c15 ^ (number as u64 + 1));
    let mut counts = Counts::default();
    for _ in 0..said.finds {
        let (from, sub) = (draws.below(plan.nodes()), draws.below(said.subs));
        let begun = Instant::now();
        find(plan, &mut directory, from, sub, &mut counts)?;
        counts.times.push(begun.elapsed());
    }
    Ok(counts)
}

fn run_all(whole: &Plan, said: Said) -> Result<(Counts, Duration), Failure> {
    let begun = Instant::now();
    let said = Arc::new(said);
    let mut threads = Vec::new();
    for number in 0..said.threads {
        let (said, plan) = (Arc::clone(&said), whole.share()?);
        threads.push(thread::spawn(move || run_thread(&said, &plan, number)));
    }
    let mut all = Counts::default();
    for it in threads {
        let counts = it.join().expect("no thread panics")?;
        all.on += counts.on;
        all.off += counts.off;
        all.unknown += counts.unknown;
        all.again += counts.again;
        all.times.extend(counts.times);
    }
    Ok((all, begun.elapsed()))
}

fn main() {
    let words: Vec<String> = env::args().skip(1).collect();
    let Some((plan, said)) = read_words(&words) else {
        eprintln!("find_in_redis NETWORK NAME SUBS THREADS FINDS HOST:PORT=GENERATION..");
        process::exit(2);
    };
    match run_all(&plan, said) {
        Ok((mut all, seconds)) => {
            all.times.sort();
            let at = |share: usize| {
                all.times
                    .get(all.times.len() * share / 100)
                    .map_or(0, Duration::as_micros)
            };
            println!(
                "on {} off {} unknown {} again {} micros {} median {} most {}",
                all.on,
                all.off,
                all.unknown,
                all.again,
                seconds.as_micros(),
                at(50),
                at(99)
            );
        }
        Err(failure) => {
            eprintln!("find_in_redis: {failure}");
            process::exit(1);
        }
    }
}
