//! A Redis server that keeps values in memory, with the commands PING, ECHO, SET, GET, DEL, INCR,
//! MGET, COMMAND and QUIT.
//!
//! Without arguments it also plays a client over a pair of sockets, which sends chunks of three
//! bytes, and prints the replies. With the argument `listen` it serves clients of `127.0.0.1`, one
//! at a time, at a port that it prints first, until a client sends SHUTDOWN.
use pergidau::resp::{self, Protocol, Reply};
use pergidau::Error;
use std::collections::HashMap;
use std::io::{self, Read, Write};
use std::net::TcpListener;
use std::os::unix::net::UnixStream;
use std::thread;

/// The maximum length of a request in bytes.
const MOST: usize = 1 << 16;

type Values = HashMap<Vec<u8>, Vec<u8>>;

/// The action after a reply.
#[derive(PartialEq)]
enum Next {
    Read,
    Close,
    End,
}

/// The words of a request: an array of bulk strings, at least one.
fn words<'i>(request: Reply<'i>) -> Option<Vec<&'i [u8]>> {
    let Reply::Array(elements) = request else { return None };
    let bulk = |it: Result<Reply<'i>, Error>| match it {
        Ok(Reply::Bulk(text)) => Some(text),
        _ => None,
    };
    elements.map(bulk).collect::<Option<Vec<_>>>().filter(|it| !it.is_empty())
}

fn bulk(text: Option<&[u8]>, out: &mut Vec<u8>) {
    match text {
        Some(text) => {
            out.extend_from_slice(format!("${}\r\n", text.len()).as_bytes());
            out.extend_from_slice(text);
            out.extend_from_slice(b"\r\n");
        }
        None => out.extend_from_slice(b"$-1\r\n"),
    }
}

/// Returns the stored value plus 1, if it is an integer as in a `:` reply of Redis.
fn incremented(old: Option<&Vec<u8>>) -> Option<i64> {
    let Some(old) = old else { return Some(1) };
    let text = [b":", &old[..], b"\r\n"].concat();
    match resp::reply(&text, Protocol::Resp2, 0) {
        Ok((Reply::Integer(number), b"")) => number.checked_add(1),
        _ => None,
    }
}

/// Appends the reply to a request to `out`.
fn answer(words: &[&[u8]], values: &mut Values, out: &mut Vec<u8>) -> Next {
    match (&words[0].to_ascii_uppercase()[..], &words[1..]) {
        (b"PING", []) => out.extend_from_slice(b"+PONG\r\n"),
        (b"PING" | b"ECHO", [text]) => bulk(Some(text), out),
        (b"SET", [name, value]) => {
            values.insert(name.to_vec(), value.to_vec());
            out.extend_from_slice(b"+OK\r\n");
        }
        (b"GET", [name]) => bulk(values.get(*name).map(Vec::as_slice), out),
        (b"MGET", names @ [_, ..]) => {
            out.extend_from_slice(format!("*{}\r\n", names.len()).as_bytes());
            names.iter().for_each(|it| bulk(values.get(*it).map(Vec::as_slice), out));
        }
        (b"DEL", names @ [_, ..]) => {
            let count = names.iter().filter(|it| values.remove(**it).is_some()).count();
            out.extend_from_slice(format!(":{count}\r\n").as_bytes());
        }
        (b"INCR", [name]) => match incremented(values.get(*name)) {
            Some(number) => {
                values.insert(name.to_vec(), number.to_string().into_bytes());
                out.extend_from_slice(format!(":{number}\r\n").as_bytes());
            }
            None => out.extend_from_slice(b"-ERR value is not an integer or out of range\r\n"),
        },
        // Clients send this command when they connect, and accept an empty reply.
        (b"COMMAND", _) => out.extend_from_slice(b"*0\r\n"),
        (b"QUIT", []) => {
            out.extend_from_slice(b"+OK\r\n");
            return Next::Close;
        }
        (b"SHUTDOWN", _) => return Next::End,
        _ => out.extend_from_slice(b"-ERR unknown command or wrong number of arguments\r\n"),
    }
    Next::Read
}

/// Serves a client until it disconnects, or sends an invalid request.
fn serve(client: &mut (impl Read + Write), values: &mut Values) -> io::Result<Next> {
    let (mut held, mut piece, mut out) = (Vec::new(), [0; 512], Vec::new());
    loop {
        let count = client.read(&mut piece)?;
        if count == 0 {
            return Ok(Next::Close);
        }
        held.extend_from_slice(&piece[..count]);
        let (mut left, mut next) = (&held[..], Next::Read);
        while !left.is_empty() && next == Next::Read {
            match resp::reply_partial(left, Protocol::Resp2, 1) {
                Ok((request, behind)) => {
                    next = match words(request) {
                        Some(words) => answer(&words, values, &mut out),
                        None => {
                            out.extend_from_slice(b"-ERR Protocol error\r\n");
                            Next::Close
                        }
                    };
                    left = behind;
                }
                Err(Error::Incomplete) if left.len() < MOST => break,
                Err(error) => {
                    out.extend_from_slice(format!("-ERR Protocol error: {error}\r\n").as_bytes());
                    next = Next::Close;
                }
            }
        }
        client.write_all(&out)?;
        out.clear();
        if next != Next::Read {
            return Ok(next);
        }
        let done = held.len() - left.len();
        held.drain(..done);
    }
}

/// Formats a reply, similar to `redis-cli`.
fn shown(reply: Reply) -> String {
    match reply {
        Reply::Simple(text) => String::from_utf8_lossy(text).into_owned(),
        Reply::Error(text) => format!("(error) {}", String::from_utf8_lossy(text)),
        Reply::Integer(number) => format!("(integer) {number}"),
        Reply::Bulk(text) => format!("{:?}", String::from_utf8_lossy(text)),
        Reply::NullBulk | Reply::NullArray => "(nil)".to_string(),
        Reply::Array(elements) => {
            let each = elements.map(|it| it.map_or_else(|error| error.to_string(), shown));
            format!("[{}]", each.collect::<Vec<_>>().join(", "))
        }
        // The server sends only replies of RESP2.
        other => format!("{other:?}"),
    }
}

/// Sends requests in chunks, and prints the replies.
fn play(server: &mut UnixStream, requests: &[&[&str]], end: &[u8]) -> io::Result<()> {
    let mut script = Vec::new();
    for request in requests {
        resp::append_command(request, &mut script).map_err(io::Error::other)?;
    }
    script.extend_from_slice(end);
    for piece in script.chunks(3) {
        server.write_all(piece)?;
    }
    server.shutdown(std::net::Shutdown::Write)?;
    let mut got = Vec::new();
    server.read_to_end(&mut got)?;
    let mut left = &got[..];
    while !left.is_empty() {
        let (reply, behind) = resp::reply(left, Protocol::Resp2, 1).map_err(io::Error::other)?;
        println!("{}", shown(reply));
        left = behind;
    }
    Ok(())
}

fn listen() -> io::Result<()> {
    let listener = TcpListener::bind("127.0.0.1:0")?;
    println!("{}", listener.local_addr()?.port());
    io::stdout().flush()?;
    let mut values = Values::new();
    for client in listener.incoming() {
        // (a client that disconnects ends only its own connection)
        if let Ok(Next::End) = serve(&mut client?, &mut values) {
            break;
        }
    }
    Ok(())
}

fn main() -> io::Result<()> {
    if std::env::args().nth(1).as_deref() == Some("listen") {
        return listen();
    }
    let scripts: [(&[&[&str]], &[u8]); 3] = [
        (
            &[
                &["PING"], &["set", "a", "1"], &["INCR", "a"], &["INCR", "b"], &["GET", "a"],
                &["SET", "c", "two\r\nlines"], &["MGET", "c", "none", "b"], &["INCR", "c"],
                &["DEL", "a", "c", "none"], &["GET", "a"], &["SET", "m", "9223372036854775807"],
                &["INCR", "m"], &["GET"], &["ECHO", ""], &["QUIT"], &["PING"],
            ],
            b"",
        ),
        (&[&["PING", "x"]], b"*1\r\n:1\r\n"),
        (&[&["PING"]], b"*1\r\n$x\r\n"),
    ];
    for (number, (requests, end)) in scripts.into_iter().enumerate() {
        let (mut client, mut server) = UnixStream::pair()?;
        println!("---- client {}", number + 1);
        let served = thread::spawn(move || {
            let ended = serve(&mut server, &mut Values::new());
            server.shutdown(std::net::Shutdown::Write)?;
            // Drains the remaining input, so that the client receives the last reply.
            io::copy(&mut server, &mut io::sink())?;
            ended
        });
        play(&mut client, requests, end)?;
        served.join().map_err(|_| io::Error::other("the server panicked"))??;
    }
    Ok(())
}
