//! The inputs of the workloads. They are generated from a fixed seed, so they are always the same.
mod formats;

pub use formats::*;

/// A pseudorandom number generator.
struct Dice(u64);

impl Dice {
    fn below(&mut self, n: usize) -> usize {
        self.0 = self.0.wrapping_mul(6364136223846793005).wrapping_add(1442695040888963407);
        ((self.0 >> 33) as usize) % n
    }

    fn letters(&mut self, out: &mut Vec<u8>, n: usize) {
        for _ in 0..n {
            out.push(b'a' + self.below(26) as u8);
        }
    }
}

/// Generates parts until there are at least `size` bytes.
fn parts(size: usize, mut part: impl FnMut(&mut Dice, &mut Vec<u8>)) -> Vec<u8> {
    let mut dice = Dice(19);
    let mut out = Vec::with_capacity(size + 4096);
    while out.len() < size {
        part(&mut dice, &mut out);
    }
    out
}

/// Generates an INI document: sections with pairs and comments.
pub fn document(size: usize) -> Vec<u8> {
    parts(size, |dice, out| {
        out.extend(format!("[part {}]\n", dice.below(1000)).bytes());
        for _ in 0..dice.below(16) + 4 {
            if dice.below(8) == 0 {
                out.extend(b"; a remark on a line of its own\n");
            }
            let key = dice.below(9) + 4;
            dice.letters(out, key);
            out.extend(if dice.below(2) == 0 { &b" = "[..] } else { b"=" });
            for _ in 0..dice.below(7) + 1 {
                let word = dice.below(8) + 1;
                dice.letters(out, word);
                out.push(b' ');
            }
            if dice.below(6) == 0 {
                out.extend(b"; why");
            }
            out.push(b'\n');
        }
        out.push(b'\n');
    })
}

/// Generates numbers of one to nine digits, each followed by a comma.
pub fn numbers(size: usize) -> Vec<u8> {
    parts(size, |dice, out| {
        let bound = 10usize.pow(dice.below(9) as u32 + 1);
        let number = dice.below(bound);
        out.extend(format!("{number},").bytes());
    })
}

/// Generates lines of comma-separated fields without quotes.
pub fn fields(size: usize) -> Vec<u8> {
    parts(size, |dice, out| {
        for k in 0..dice.below(12) + 1 {
            if k > 0 {
                out.push(b',');
            }
            let field = dice.below(17);
            dice.letters(out, field);
        }
        out.push(b'\n');
    })
}

/// Generates heads of HTTP requests with 12 lines each.
pub fn heads(size: usize) -> Vec<u8> {
    let lines = [
        "Host: www.example.org",
        "User-Agent: Mozilla/5.0 (X11; Linux x86_64; rv:128.0) Gecko/20100101 Firefox/128.0",
        "Accept: text/html,application/xhtml+xml,application/xml;q=0.9,*/*;q=0.8",
        "Accept-Language: en-GB,en;q=0.5",
        "Accept-Encoding: gzip, deflate, br",
        "Referer: https://www.example.org/a/page/before/this/one.html",
        "Connection: keep-alive",
        "Cookie: session=8f14e45fceea167a5a36dedd4bea2543; theme=dark; seen=1",
        "Upgrade-Insecure-Requests: 1",
        "Cache-Control: max-age=0",
        "If-None-Match: \"1541025663\"",
    ];
    parts(size, |dice, out| {
        out.extend(b"GET /");
        for _ in 0..dice.below(5) + 1 {
            let part = dice.below(10) + 1;
            dice.letters(out, part);
            out.push(b'/');
        }
        out.extend(b" HTTP/1.1\r\n");
        for line in lines {
            out.extend(line.bytes());
            out.extend(b"\r\n");
        }
        out.extend(b"\r\n");
    })
}

/// Generates words from six keywords, each followed by a space; in upper or lower case if `mixed`
/// is true.
pub fn keywords(size: usize, mixed: bool) -> Vec<u8> {
    let words = ["select", "from", "where", "group", "order", "limit"];
    parts(size, |dice, out| {
        let word = words[dice.below(6)];
        for byte in word.bytes() {
            let upper = mixed && dice.below(2) == 0;
            out.push(if upper { byte.to_ascii_uppercase() } else { byte });
        }
        out.push(b' ');
    })
}

/// Generates words, some of them with letters beyond ASCII, each followed by a space.
pub fn words(size: usize) -> Vec<u8> {
    parts(size, |dice, out| {
        let word = dice.below(9) + 1;
        dice.letters(out, word);
        if dice.below(5) == 0 {
            out.extend("é".bytes());
        }
        out.push(b' ');
    })
}

/// Generates random bytes.
pub fn bytes(size: usize) -> Vec<u8> {
    parts(size, |dice, out| out.push(dice.below(256) as u8))
}

/// Generates records: a two-byte kind, a two-byte length, and a payload of that length, up to 63
/// bytes.
pub fn records(size: usize) -> Vec<u8> {
    parts(size, |dice, out| {
        out.extend((dice.below(1 << 16) as u16).to_be_bytes());
        let length = dice.below(64);
        out.extend((length as u16).to_be_bytes());
        dice.letters(out, length);
    })
}

/// Generates frames: a length up to 127 in digits, a colon, as many letters, and a comma.
pub fn frames(size: usize) -> Vec<u8> {
    parts(size, |dice, out| {
        let length = dice.below(128);
        out.extend(format!("{length}:").bytes());
        dice.letters(out, length);
        out.push(b',');
    })
}

/// Generates an expression of digits from 1 to 9, separated by one of four operators.
pub fn expression(size: usize) -> Vec<u8> {
    let mut all = parts(size, |dice, out| {
        out.push(b'1' + dice.below(9) as u8);
        out.push(b"+-*/"[dice.below(4)]);
    });
    all.push(b'1');
    all
}

/// Generates names of headers, each followed by a colon.
pub fn names(size: usize) -> Vec<u8> {
    let names = [
        "Host",
        "User-Agent",
        "Accept",
        "Accept-Language",
        "Accept-Encoding",
        "Referer",
        "Connection",
        "Cookie",
        "Upgrade-Insecure-Requests",
        "Cache-Control",
        "If-None-Match",
        "X-Forwarded-For-2",
    ];
    parts(size, |dice, out| {
        out.extend(names[dice.below(12)].bytes());
        out.push(b':');
    })
}

/// Generates letters and spaces in which the literal occurs about once in `every` bytes. Its first
/// byte also occurs without the rest, about once in `alone` bytes, unless `alone` is 0.
pub fn marked(size: usize, literal: &[u8], every: usize, alone: usize) -> Vec<u8> {
    parts(size, |dice, out| {
        for _ in 0..dice.below(2 * every) {
            out.push(b"etaoin shrdlu cmfwyp vbgkjqxz"[dice.below(29)]);
            if alone > 0 && dice.below(alone) == 0 {
                out.push(literal[0]);
            }
        }
        out.extend(literal);
    })
}
