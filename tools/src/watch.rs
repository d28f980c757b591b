//! `watch`: the page as it grows, on this machine only. A small server of HTTP: the page, and its tables as events.

use crate::failure::Failure;
use crate::frame::Frame;
use crate::input::{self, Fault, Sink};
use crate::model::Model;
use crate::options::{unknown, Listening, Words};
use crate::page;
use std::ffi::OsString;
use std::io::{self, Read, Write};
use std::net::{Ipv4Addr, TcpListener, TcpStream};
use std::sync::atomic::{AtomicUsize, Ordering};
use std::sync::{Arc, Condvar, Mutex, MutexGuard};
use std::thread;
use std::time::{Duration, Instant};

/// Browsers, or parts of them, that are answered at once.
const CLIENTS_MAX: usize = 8;
const REQUEST_MAX: usize = 8192;
const PATIENCE: Duration = Duration::from_secs(5);
/// For a client that is turned away; others wait meanwhile.
const BRIEFLY: Duration = Duration::from_millis(100);
const FULL: &str = "<title>Tecelume</title><p>This page is open eight times already: close one, and load it again.";
/// The least time between two events; with large tables it is as many times what they take to write.
const EVERY: Duration = Duration::from_millis(40);
const REST: u32 = 10;
/// How often a client looks whether something came that it was not woken for.
const LOOK: Duration = Duration::from_millis(250);

pub fn run(words: Vec<OsString>) -> Result<(), Failure> {
    let mut listening = Listening::new();
    let mut port = 0;
    let mut words = Words::new(words);
    while let Some(option) = words.option() {
        match option.as_str() {
            "--port" => port = words.number(&option, 1, 65535)? as u16,
            option if listening.take(option, &mut words)? => (),
            option => return Err(unknown(option)),
        }
    }
    let source = listening.source(&words.plain)?;
    let opened = source.open()?;
    let reading = listening.reading;
    let shared = Arc::new(Shared {
        model: Mutex::new(Model::new(source.name(), listening)?),
        came: Condvar::new(),
        clients: AtomicUsize::new(0),
    });
    let cannot = |error: io::Error| {
        Failure::Writing(format!("cannot serve port {port} of 127.0.0.1: {error}"))
    };
    let listener = TcpListener::bind((Ipv4Addr::LOCALHOST, port)).map_err(cannot)?;
    let port = listener.local_addr().map_err(cannot)?.port();
    let told =
        writeln!(io::stdout(), "http://127.0.0.1:{port}/").and_then(|()| io::stdout().flush());
    told.map_err(|_| Failure::writing())?;
    let server = {
        let shared = Arc::clone(&shared);
        thread::spawn(move || serve(&listener, port, &shared))
    };
    input::run(opened, &reading, &mut Watched(&shared))?;
    eprintln!("tecelume: the input has ended; the page stays until this program is stopped");
    server.join().map_err(|_| Failure::writing())
}

struct Shared {
    model: Mutex<Model>,
    came: Condvar,
    clients: AtomicUsize,
}

impl Shared {
    fn model(&self) -> MutexGuard<'_, Model> {
        self.model
            .lock()
            .expect("no thread ends in the midst of a model")
    }
}

struct Watched<'a>(&'a Shared);

impl Sink for Watched<'_> {
    fn frame(&mut self, frame: &Frame) -> Result<(), Failure> {
        self.0.model().frame(frame)
    }

    fn fault(&mut self, line: u64, fault: &Fault) -> Result<(), Failure> {
        self.0.model().fault(line, fault)
    }

    fn interface(&mut self, name: &str) -> Result<(), Failure> {
        self.0.model().interface(name)
    }

    fn note(&mut self, text: &str) -> Result<(), Failure> {
        self.0.model().note(text)
    }

    fn pause(&mut self) -> Result<(), Failure> {
        self.0.came.notify_all();
        Ok(())
    }
}

fn serve(listener: &TcpListener, port: u16, shared: &Arc<Shared>) {
    for stream in listener.incoming().flatten() {
        let shared = Arc::clone(shared);
        if shared.clients.fetch_add(1, Ordering::SeqCst) >= CLIENTS_MAX {
            shared.clients.fetch_sub(1, Ordering::SeqCst);
            let _ = turn_away(&stream);
            continue;
        }
        // a client that does not speak or listen is left; what it got is its own concern
        thread::spawn(move || {
            let _ = client(&stream, port, &shared);
            shared.clients.fetch_sub(1, Ordering::SeqCst);
        });
    }
}

/// What the client asks is read first: where a connection is closed with bytes unread, the answer may be lost.
fn turn_away(mut stream: &TcpStream) -> io::Result<()> {
    stream.set_read_timeout(Some(BRIEFLY))?;
    stream.set_write_timeout(Some(BRIEFLY))?;
    let _ = stream.read(&mut [0; REQUEST_MAX]);
    answer(stream, "503 Service Unavailable", FULL.as_bytes())
}

fn client(stream: &TcpStream, port: u16, shared: &Shared) -> io::Result<()> {
    stream.set_read_timeout(Some(PATIENCE))?;
    stream.set_write_timeout(Some(PATIENCE))?;
    stream.set_nodelay(true)?;
    match requested(&request(stream)?, port) {
        Requested::Page => answer(stream, "200 OK", &page::page(b"null", true)),
        Requested::Events => events(stream, shared),
        Requested::Nothing(status) => answer(stream, status, b""),
    }
}

/// Lines up to the empty one, or as many bytes as are looked at.
fn request(mut stream: &TcpStream) -> io::Result<Vec<u8>> {
    let mut bytes = Vec::new();
    let mut part = [0; 1024];
    while bytes.len() < REQUEST_MAX && !bytes.windows(4).any(|four| four == b"\r\n\r\n") {
        match stream.read(&mut part)? {
            0 => break,
            read => bytes.extend_from_slice(&part[..read]),
        }
    }
    Ok(bytes)
}

#[derive(Debug, PartialEq, Eq)]
enum Requested {
    Page,
    Events,
    Nothing(&'static str),
}

/// Only a browser that was told this address is answered: a page of another site whose name leads here has another host.
fn requested(request: &[u8], port: u16) -> Requested {
    let request = String::from_utf8_lossy(request);
    let Some((head, _)) = request.split_once("\r\n\r\n") else {
        return Requested::Nothing("400 Bad Request");
    };
    let mut lines = head.split("\r\n");
    let mut first = lines.next().unwrap_or_default().split(' ');
    let (method, path, version) = (first.next(), first.next(), first.next());
    if !version.is_some_and(|version| version.starts_with("HTTP/1.")) || first.next().is_some() {
        return Requested::Nothing("400 Bad Request");
    }
    let is_host = |name: &str| name.trim().eq_ignore_ascii_case("host");
    let mut hosts = lines
        .filter_map(|line| line.split_once(':'))
        .filter(|(name, _)| is_host(name));
    let host = hosts
        .next()
        .map(|(_, host)| host.trim().to_ascii_lowercase());
    // a browser leaves out the port that is the usual one
    let named = |host: &str| match host.strip_suffix(&format!(":{port}")) {
        None if port == 80 => matches!(host, "127.0.0.1" | "localhost"),
        name => matches!(name, Some("127.0.0.1" | "localhost")),
    };
    if !host.is_some_and(|host| named(&host)) || hosts.next().is_some() {
        return Requested::Nothing("403 Forbidden");
    }
    match (method, path) {
        (Some("GET"), Some("/")) => Requested::Page,
        (Some("GET"), Some("/events")) => Requested::Events,
        (Some("GET"), _) => Requested::Nothing("404 Not Found"),
        _ => Requested::Nothing("405 Method Not Allowed"),
    }
}

const COMMON: &str = "X-Content-Type-Options: nosniff\r\nCross-Origin-Resource-Policy: same-origin\r\nContent-Security-Policy: frame-ancestors 'none'\r\nCache-Control: no-store\r\nConnection: close\r\n";

fn answer(mut stream: &TcpStream, status: &str, page: &[u8]) -> io::Result<()> {
    let length = page.len();
    let head = format!("HTTP/1.1 {status}\r\nContent-Type: text/html; charset=utf-8\r\nContent-Length: {length}\r\n{COMMON}\r\n");
    stream.write_all(&[head.as_bytes(), page].concat())
}

/// The tables now, and again whenever something came.
fn events(mut stream: &TcpStream, shared: &Shared) -> io::Result<()> {
    let head = format!("HTTP/1.1 200 OK\r\nContent-Type: text/event-stream\r\n{COMMON}\r\n");
    stream.write_all(head.as_bytes())?;
    let mut told = None;
    loop {
        let is_told = |model: &mut Model| told == Some(model.version());
        let model = shared
            .came
            .wait_timeout_while(shared.model(), LOOK, is_told);
        let (model, _) = model.expect("no thread ends in the midst of a model");
        if told == Some(model.version()) {
            drop(model);
            // a comment, by which a client that has gone is noticed
            stream.write_all(b":\n\n")?;
            continue;
        }
        let begun = Instant::now();
        told = Some(model.version());
        let mut event = b"data: ".to_vec();
        model.json(&mut event);
        drop(model);
        event.extend_from_slice(b"\n\n");
        stream.write_all(&event)?;
        thread::sleep(EVERY.max(begun.elapsed() * REST).min(PATIENCE));
    }
}

#[cfg(test)]
mod tests {
    use super::*;

    #[test]
    fn requests() {
        let of = |request: &str| requested(request.as_bytes(), 8000);
        let get =
            |path: &str, host: &str| of(&format!("GET {path} HTTP/1.1\r\nHost: {host}\r\n\r\n"));
        assert_eq!(get("/", "127.0.0.1:8000"), Requested::Page);
        assert_eq!(get("/", "LOCALHOST:8000"), Requested::Page);
        assert_eq!(get("/events", "127.0.0.1:8000"), Requested::Events);
        assert_eq!(
            get("/other", "127.0.0.1:8000"),
            Requested::Nothing("404 Not Found")
        );
        for host in [
            "127.0.0.1",
            "127.0.0.1:80",
            "example.org:8000",
            "127.0.0.1:8000\r\nHost: example.org:8000",
        ] {
            assert_eq!(
                get("/", host),
                Requested::Nothing("403 Forbidden"),
                "{host}"
            );
        }
        for (host, asked) in [
            ("127.0.0.1", Requested::Page),
            ("localhost:80", Requested::Page),
            ("127.0.0.1:8000", Requested::Nothing("403 Forbidden")),
            ("example.org", Requested::Nothing("403 Forbidden")),
        ] {
            let request = format!("GET / HTTP/1.1\r\nHost: {host}\r\n\r\n");
            assert_eq!(requested(request.as_bytes(), 80), asked, "{host}");
        }
        assert_eq!(
            of("GET / HTTP/1.1\r\n\r\n"),
            Requested::Nothing("403 Forbidden")
        );
        let post = "POST / HTTP/1.1\r\nHost: localhost:8000\r\n\r\n";
        assert_eq!(of(post), Requested::Nothing("405 Method Not Allowed"));
        for bad in [
            "",
            "GET /",
            "GET / HTTP/1.1\r\nHost: localhost:8000\r\n",
            "GET / x HTTP/1.1\r\n\r\n",
            "\r\n\r\n",
        ] {
            assert_eq!(of(bad), Requested::Nothing("400 Bad Request"), "{bad:?}");
        }
    }
}
