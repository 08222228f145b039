//! A load for `serve`: `load PORT NODES CLIENTS CALLS SEED`. Each client opens a subscriber of its own, and then moves and
//! switches any of them and looks for any of them, as its draws say. It writes how many calls were made, how many finds have
//! to be made again, and the time.
use std::io::{self, BufRead, BufReader, Write};
use std::net::{Ipv4Addr, TcpStream};
use std::sync::{Arc, Barrier};
use std::time::Instant;
use std::{env, process, thread};

/// Numbers that look like chance, the same for the same seed.
struct Draw(u64);

impl Draw {
    fn below(&mut self, most: u32) -> u32 {
        self.0 = self
            .0
            .wrapping_mul(6_364_136_223_846_793_005)
            .wrapping_add(1_442_695_040_888_963_407);
        ((self.0 >> 33) % u64::from(most)) as u32
    }
}

#[derive(Clone, Copy)]
struct Load {
    port: u16,
    nodes: u32,
    clients: u32,
    calls: u32,
    seed: u64,
}

struct Client {
    reader: BufReader<TcpStream>,
    writer: TcpStream,
    line: String,
}

impl Client {
    fn new(port: u16) -> io::Result<Client> {
        let writer = TcpStream::connect((Ipv4Addr::LOCALHOST, port))?;
        writer.set_nodelay(true)?;
        Ok(Client {
            reader: BufReader::new(writer.try_clone()?),
            writer,
            line: String::new(),
        })
    }

    fn call(&mut self, request: &str) -> io::Result<&str> {
        self.writer.write_all(request.as_bytes())?;
        self.line.clear();
        self.reader.read_line(&mut self.line)?;
        self.line
            .strip_suffix('\n')
            .ok_or_else(|| io::ErrorKind::UnexpectedEof.into())
    }
}

/// A client's calls; how many finds have to be made again.
fn play(load: Load, number: u32, barrier: &Barrier) -> io::Result<u32> {
    let mut draw = Draw(
        load.seed
            .wrapping_mul(1_000)
            .wrapping_add(u64::from(number)),
    );
    let mut client = Client::new(load.port)?;
    let told = client.call(&format!("new {}\n", draw.below(load.nodes)))?;
    assert!(told.starts_with("sub "), "new: {told}");
    barrier.wait();
    let mut again = 0;
    for _ in 0..load.calls / load.clients {
        let sub = draw.below(load.clients);
        let request = match draw.below(16) {
            0..=4 => format!("move {sub} {}\n", draw.below(load.nodes)),
            5 => format!("off {sub}\n"),
            6 | 7 => format!("on {sub}\n"),
            _ => format!("find {} {sub}\n", draw.below(load.nodes)),
        };
        let told = client.call(&request)?;
        let is_find = request.starts_with("find");
        let is_right = match told.split(' ').next() {
            Some("at" | "off" | "again") => is_find,
            Some("ok") => !is_find,
            _ => !is_find && matches!(told, "refused place" | "refused off" | "refused already"),
        };
        assert!(is_right, "{request}: {told}");
        again += u32::from(told.starts_with("again"));
    }
    client.writer.write_all(b"quit\n")?;
    Ok(again)
}

fn load_of(words: &[u64]) -> Option<Load> {
    let &[port, nodes, clients, calls, seed] = words else {
        return None;
    };
    let small = |number: u64| u32::try_from(number).ok().filter(|it| *it > 0);
    Some(Load {
        port: port.try_into().ok()?,
        nodes: small(nodes)?,
        clients: small(clients)?,
        calls: small(calls)?,
        seed,
    })
}

fn main() {
    let words: Option<Vec<u64>> = env::args().skip(1).map(|it| it.parse().ok()).collect();
    let Some(load) = words.as_deref().and_then(load_of) else {
        eprintln!("usage: load PORT NODES CLIENTS CALLS SEED");
        process::exit(2);
    };
    let barrier = Arc::new(Barrier::new(load.clients as usize + 1));
    let clients: Vec<_> = (0..load.clients)
        .map(|number| {
            let barrier = Arc::clone(&barrier);
            thread::spawn(move || play(load, number, &barrier))
        })
        .collect();
    barrier.wait();
    let begun = Instant::now();
    let mut again = 0;
    for client in clients {
        again += client
            .join()
            .expect("a client ends")
            .expect("a client is served");
    }
    let calls = load.calls / load.clients * load.clients;
    println!(
        "calls {calls} again {again} microseconds {}",
        begun.elapsed().as_micros()
    );
}
