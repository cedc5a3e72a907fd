//! A load generator for servers that answer svcmgr's lines at a Unix socket; and `echo`, a server of ready-made lines,
//! which shows what sockets and lines cost by themselves. `bench/serve` compiles this file and runs both.
//!
//! ```text
//! load gets|versions|lists PATH NAMES CLIENTS DEPTH OPERATIONS
//! load echo PATH NAMES
//! ```
//!
//! One more client than CLIENTS connects at PATH and adds NAMES services. Then the CLIENTS make OPERATIONS requests in
//! all, each with DEPTH of them under way, and for `lists` the client that added the services adds them again and again
//! meanwhile. The line that is printed has the operations a second, the changes a second of the client that adds again,
//! and, where DEPTH is 1, the 50th, 99th and 99.9th percentile of the round trip in microseconds.

use std::ffi::OsString;
use std::fmt;
use std::io::{BufRead, BufReader, ErrorKind, Write};
use std::os::unix::net::{UnixListener, UnixStream};
use std::process::exit;
use std::sync::atomic::{AtomicBool, Ordering};
use std::sync::Barrier;
use std::thread::{self, ScopedJoinHandle};
use std::time::{Duration, Instant};

const USAGE: &str = "usage: load gets|versions|lists PATH NAMES CLIENTS DEPTH OPERATIONS
       load echo PATH NAMES";

/// How long a read or a write waits for the server before the run is given up.
const PATIENCE: Duration = Duration::from_secs(5);

/// The most changes of a run: each takes a slot of the journal for good. A journal has 1,048,576 by default, and the
/// others are for the connections.
const MOST_CHANGES: usize = 1_000_000;

/// The most operations of a run, whose round trips are kept up to its end.
const MOST_OPERATIONS: usize = 10_000_000;

/// The most services at once.
const MOST_NAMES: usize = 4096;

/// The most clients besides the one that adds the services: a server has at most 64.
const MOST_CLIENTS: usize = 63;

/// The most requests under way. They fit into a socket, so that no client waits to write while its server does.
const MOST_DEPTH: usize = 256;

/// The bytes that are taken from a socket at once, at most.
const PIECE: usize = 1 << 16;

/// The parts of a thousand round trips that are no longer than each percentile.
const PERCENTILES: [usize; 3] = [500, 990, 999];

fn main() {
    let words: Vec<String> = std::env::args_os().skip(1).map(utf8).collect();
    let words: Vec<&str> = words.iter().map(String::as_str).collect();
    match words[..] {
        ["echo", path, names] => echo(path, &names_of(names)),
        [kind, path, names, clients, depth, operations] => {
            let plan = Plan {
                kind: Kind::of(kind),
                path,
                names: names_of(names),
                clients: number("CLIENTS", clients, MOST_CLIENTS),
                depth: number("DEPTH", depth, MOST_DEPTH),
                operations: number("OPERATIONS", operations, MOST_OPERATIONS),
            };
            plan.check();
            println!("{}", measure(&plan));
        }
        _ => misuse("these arguments are not understood"),
    }
}

/// Ends the program because of wrong arguments.
fn misuse(why: &str) -> ! {
    eprintln!("load: {why}\n{USAGE}");
    exit(2)
}

/// Ends the program because of a wrong answer. This ends the other threads, too.
fn give_up(why: &str) -> ! {
    eprintln!("load: {why}");
    exit(1)
}

fn utf8(word: OsString) -> String {
    word.into_string().unwrap_or_else(|_| misuse("an argument isn't UTF-8"))
}

/// The number from 1 to `most` that `word` spells.
fn number(what: &str, word: &str, most: usize) -> usize {
    match word.parse() {
        Ok(number) if (1..=most).contains(&number) => number,
        _ => misuse(&format!("{what} is a number from 1 to {most}, and not {word}")),
    }
}

/// The names of services, as many as `word` says.
fn names_of(word: &str) -> Vec<String> {
    (0..number("NAMES", word, MOST_NAMES)).map(|n| format!("service.n{n}")).collect()
}

/// The kind of the requests.
#[derive(Clone, Copy, PartialEq)]
enum Kind {
    Gets,
    Versions,
    Lists,
}

impl Kind {
    fn of(word: &str) -> Kind {
        match word {
            "gets" => Kind::Gets,
            "versions" => Kind::Versions,
            "lists" => Kind::Lists,
            _ => misuse(&format!("nothing is known of {word}")),
        }
    }

    /// The beginning of each reply.
    fn reply(self) -> &'static str {
        match self {
            Kind::Gets => "handle ",
            Kind::Versions => "version ",
            Kind::Lists => "names ",
        }
    }

    fn push_request(self, name: &str, text: &mut Vec<u8>) {
        match self {
            Kind::Gets => {
                text.extend_from_slice(b"get ");
                text.extend_from_slice(name.as_bytes());
                text.push(b'\n');
            }
            Kind::Versions => text.extend_from_slice(b"version\n"),
            Kind::Lists => text.extend_from_slice(b"list 15\n"),
        }
    }
}

/// What a run does. `operations` are those of all clients; `depth` are the requests that each has under way.
struct Plan<'a> {
    kind: Kind,
    path: &'a str,
    names: Vec<String>,
    clients: usize,
    depth: usize,
    operations: usize,
}

impl Plan<'_> {
    fn check(&self) {
        if self.operations < self.clients {
            misuse("there are fewer OPERATIONS than CLIENTS");
        }
        if self.kind == Kind::Gets && self.operations > MOST_CHANGES - self.names.len() {
            misuse(&format!("a get is a change, and NAMES and OPERATIONS are at most {MOST_CHANGES} together"));
        }
    }

    /// The operations of each client.
    fn share(&self) -> usize {
        self.operations / self.clients
    }
}

// ---- a client's connection

/// A client that has connected.
struct Client {
    stream: BufReader<UnixStream>,
    /// The requests that aren't sent yet.
    text: Vec<u8>,
    /// The last reply.
    line: Vec<u8>,
}

impl Client {
    fn open(path: &str, process: usize, user: usize, context: &str) -> Client {
        let opened = UnixStream::connect(path).and_then(|stream| {
            stream.set_read_timeout(Some(PATIENCE))?;
            stream.set_write_timeout(Some(PATIENCE))?;
            Ok(stream)
        });
        let stream = opened.unwrap_or_else(|error| give_up(&format!("no connection at {path}: {error}")));
        let stream = BufReader::with_capacity(PIECE, stream);
        let text = format!("hello {process} {user} {context}\n").into_bytes();
        let mut client = Client { stream, text, line: Vec::new() };
        client.send();
        client.hear("client ");
        client
    }

    fn send(&mut self) {
        if let Err(error) = self.stream.get_ref().write_all(&self.text) {
            give_up(&format!("a request wasn't sent: {}", words_of(error.kind())));
        }
        self.text.clear();
    }

    /// Waits for a reply, which must begin with `expected`.
    fn hear(&mut self, expected: &str) {
        self.line.clear();
        if let Err(error) = self.stream.read_until(b'\n', &mut self.line) {
            give_up(&format!("no reply came: {}", words_of(error.kind())));
        }
        if self.line.last() != Some(&b'\n') {
            give_up("no reply came: the server closed the connection");
        }
        if !self.line.starts_with(expected.as_bytes()) {
            let begin = String::from_utf8_lossy(&self.line[..self.line.len().min(100)]);
            give_up(&format!("a reply begins with `{}`, and not with `{expected}`", begin.trim_end()));
        }
    }

    /// Waits for a reply, and takes those that came with it; returns their number.
    fn hear_all(&mut self, expected: &str) -> usize {
        self.hear(expected);
        let mut replies = 1;
        while self.stream.buffer().contains(&b'\n') {
            self.hear(expected);
            replies += 1;
        }
        replies
    }

    /// Adds the service of number `n` of `names`, with an object of its own and dump flags that every list shows.
    fn add(&mut self, names: &[String], n: usize) {
        let n = n % names.len();
        self.text.extend_from_slice(format!("add {} o{} 0 8\n", names[n], n + 1).as_bytes());
        self.send();
        self.hear("ok\n");
    }
}

/// What is wrong with a connection; a time-out has a name of its own here, and the system's is misleading.
fn words_of(kind: ErrorKind) -> String {
    match kind {
        ErrorKind::WouldBlock | ErrorKind::TimedOut => format!("nothing happened in {} seconds", PATIENCE.as_secs()),
        other => other.to_string(),
    }
}

// ---- a run

/// What one client did, and how long each round trip took where one request was under way.
struct Part {
    began: Instant,
    ended: Instant,
    operations: usize,
    trips: Vec<Duration>,
}

/// Makes the operations of the client of number `number`, or as many as come before `over`.
fn work(client: &mut Client, number: usize, plan: &Plan, over: &AtomicBool) -> Part {
    let share = plan.share();
    // Each client begins elsewhere among the names.
    let first = number * plan.names.len() / plan.clients;
    let mut trips = Vec::with_capacity(if plan.depth == 1 { share } else { 0 });
    let (mut asked, mut answered) = (0, 0);
    let began = Instant::now();
    while answered < share && !over.load(Ordering::Relaxed) {
        while asked < share && asked - answered < plan.depth {
            plan.kind.push_request(&plan.names[(first + asked) % plan.names.len()], &mut client.text);
            asked += 1;
        }
        let sent = Instant::now();
        client.send();
        answered += client.hear_all(plan.kind.reply());
        if plan.depth == 1 {
            trips.push(sent.elapsed());
        }
    }
    Part { began, ended: Instant::now(), operations: answered, trips }
}

/// Adds the services again and again until it is `over`, or until the limit of changes is reached, at which the
/// others stop, too; returns the number of adds.
fn change(client: &mut Client, names: &[String], over: &AtomicBool) -> usize {
    let mut changes = 0;
    while changes < MOST_CHANGES - names.len() && !over.load(Ordering::Relaxed) {
        client.add(names, changes);
        changes += 1;
    }
    over.store(true, Ordering::Relaxed);
    changes
}

fn measure(plan: &Plan) -> Figures {
    let mut server = Client::open(plan.path, 100, 1000, "u:r:system_server:s0");
    for n in 0..plan.names.len() {
        server.add(&plan.names, n);
    }
    let open = |n| Client::open(plan.path, 200 + n, 10_000 + n, "u:r:untrusted_app:s0");
    let mut clients: Vec<Client> = (0..plan.clients).map(open).collect();
    let changing = plan.kind == Kind::Lists;
    let start = &Barrier::new(plan.clients + usize::from(changing));
    let over = &AtomicBool::new(false);
    thread::scope(|scope| {
        let changer = changing.then(|| {
            scope.spawn(|| {
                start.wait();
                change(&mut server, &plan.names, over)
            })
        });
        let begin = |(number, client)| {
            scope.spawn(move || {
                start.wait();
                work(client, number, plan, over)
            })
        };
        let workers: Vec<_> = clients.iter_mut().enumerate().map(begin).collect();
        let parts = workers.into_iter().map(joined).collect();
        over.store(true, Ordering::Relaxed);
        Figures::of(parts, changer.map_or(0, joined))
    })
}

fn joined<T>(thread: ScopedJoinHandle<'_, T>) -> T {
    thread.join().unwrap_or_else(|_| give_up("a thread of the load generator panicked"))
}

/// The figures of a run: operations and changes a second, and the percentiles in microseconds, or none.
struct Figures {
    operations: f64,
    changes: f64,
    percentiles: Vec<f64>,
}

impl Figures {
    fn of(parts: Vec<Part>, changes: usize) -> Figures {
        let began = parts.iter().map(|part| part.began).min();
        let ended = parts.iter().map(|part| part.ended).max();
        let seconds = began.zip(ended).map_or(0.0, |(began, ended)| (ended - began).as_secs_f64());
        let operations: usize = parts.iter().map(|part| part.operations).sum();
        let mut trips: Vec<Duration> = parts.into_iter().flat_map(|part| part.trips).collect();
        trips.sort_unstable();
        let shares = if trips.is_empty() { &[][..] } else { &PERCENTILES[..] };
        Figures {
            operations: operations as f64 / seconds,
            changes: changes as f64 / seconds,
            percentiles: shares.iter().map(|share| percentile(&trips, *share)).collect(),
        }
    }
}

/// The shortest of the sorted `trips`, in microseconds, that `share` of a thousand aren't longer than.
fn percentile(trips: &[Duration], share: usize) -> f64 {
    trips[(trips.len() * share).div_ceil(1000) - 1].as_secs_f64() * 1e6
}

impl fmt::Display for Figures {
    fn fmt(&self, out: &mut fmt::Formatter<'_>) -> fmt::Result {
        write!(out, "{:.0} {:.0}", self.operations, self.changes)?;
        self.percentiles.iter().try_for_each(|microseconds| write!(out, " {microseconds:.1}"))
    }
}

// ---- the server of ready-made lines

/// Answers at `path` until the program is killed, one thread a connection; a list shows all `names`.
fn echo(path: &str, names: &[String]) {
    let listener = UnixListener::bind(path).unwrap_or_else(|error| give_up(&format!("{path}: {error}")));
    let list = &format!("names 1 {0} {0} {1}\n", names.len(), names.join(" "));
    thread::scope(|scope| {
        for stream in listener.incoming() {
            let stream = stream.unwrap_or_else(|error| give_up(&format!("{path}: {error}")));
            scope.spawn(move || answer(stream, list));
        }
    });
}

/// Answers each line by one that is ready, and writes the answers to all lines that came together at once.
fn answer(stream: UnixStream, list: &str) {
    let mut stream = BufReader::with_capacity(PIECE, stream);
    let (mut line, mut replies) = (Vec::new(), Vec::new());
    while stream.read_until(b'\n', &mut line).is_ok() && line.last() == Some(&b'\n') {
        let reply = match line[0] {
            b'h' => "client 1\n",
            b'a' => "ok\n",
            b'v' => "version 1 1\n",
            b'l' => list,
            _ => "handle 1\n",
        };
        replies.extend_from_slice(reply.as_bytes());
        line.clear();
        if !stream.buffer().contains(&b'\n') {
            if stream.get_ref().write_all(&replies).is_err() {
                return;
            }
            replies.clear();
        }
    }
}
