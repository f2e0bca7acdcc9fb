//! Users of `/etc/passwd`, with messages that show the line. The format is that of `man 5 passwd`.

use std::alloc::Global;
use winnow::FuncWith;
use winnow::ascii::impls::{DecUint, Newline, TillLineEnding};
use winnow::combinator::impls::Eof;
use winnow::combinator::{cut_err, repeat_till, terminated};
use winnow::error::{ContextError, ErrMode, ParseFault};
use winnow::prelude::*;
use winnow::token::take_till;

type Message = ContextError<&'static str>;

/// A user, without the password.
#[derive(Clone, Copy, Debug, PartialEq, Eq)]
struct User<'i> {
    name: &'i str,
    id: u32,
    group: u32,
    comment: &'i str,
    home: &'i str,
    shell: &'i str,
}

/// Parses a field that may be empty, and the colon after it.
fn read_field<'i>(
    alloc: Global,
    what: &'static str,
    input: &mut &'i str,
) -> Result<&'i str, ErrMode<Message>> {
    let field = terminated(take_till(0.., (':', '\n')), ':');
    cut_err(field.context(alloc, what)).parse_next(input)
}

/// Parses a number, and the colon after it.
fn read_id(alloc: Global, what: &'static str, input: &mut &str) -> Result<u32, ErrMode<Message>> {
    cut_err(terminated(DecUint, ':').context(alloc, what)).parse_next(input)
}

/// Parses a line.
fn read_user<'i>(alloc: Global, input: &mut &'i str) -> Result<User<'i>, ErrMode<Message>> {
    let name = terminated(take_till(1.., (':', '\n')), ':');
    let name = cut_err(name.context(alloc, "a user name")).parse_next(input)?;
    let _password = read_field(alloc, "a password", input)?;
    let id = read_id(alloc, "a user ID", input)?;
    let group = read_id(alloc, "a group ID", input)?;
    let comment = read_field(alloc, "a comment", input)?;
    let home = read_field(alloc, "a home directory", input)?;
    let shell = terminated(TillLineEnding, Newline);
    let shell = cut_err(shell.context(alloc, "a line ending")).parse_next(input)?;
    Ok(User {
        name,
        id,
        group,
        comment,
        home,
        shell,
    })
}

/// Parses a whole file.
fn read_users<'i>(
    alloc: Global,
    text: &'i str,
) -> Result<Vec<User<'i>>, ParseFault<&'i str, Message>> {
    let mut users = repeat_till(alloc, 0.., FuncWith(alloc, read_user), Eof).map(|(
        users,
        _end,
    )| users);
    Parser::<_, _, ErrMode<_>>::parse(&mut users, text)
}

#[test]
fn users(rt: HostRuntime) {
    let text = "root:x:0:0:root:/root:/bin/bash\nsync:x:4:65534::/bin:\n";
    let root = User {
        name: "root",
        id: 0,
        group: 0,
        comment: "root",
        home: "/root",
        shell: "/bin/bash",
    };
    let sync = User {
        name: "sync",
        id: 4,
        group: 65534,
        comment: "",
        home: "/bin",
        shell: "",
    };
    match read_users(rt.alloc(), text) {
        Ok(users) => assert_eq!(rt; users.as_slice(), [root, sync].as_slice()),
        Err(_) => assert!(rt; false),
    }
    assert!(rt; matches!(read_users(rt.alloc(), ""), Ok(users) if users.is_empty()));
}

#[test]
fn messages(rt: HostRuntime) {
    let rows = [
        (
            "root:x:0:0::/root:/bin/sh\ndaemon:x:one:1::/:/bin/sh\n",
            "parse error at line 2, column 10\n  |\n2 | daemon:x:one:1::/:/bin/sh\n  |          ^\n\
             expected a user ID",
        ),
        (
            "a:x:1:4294967296:::\n",
            "parse error at line 1, column 7\n  |\n1 | a:x:1:4294967296:::\n  |       ^\n\
             expected a group ID",
        ),
        (
            "a:x:1:1::/\nb:x:2:2:::\n",
            "parse error at line 1, column 11\n  |\n1 | a:x:1:1::/\n  |           ^\n\
             expected a home directory",
        ),
        (
            "a:x:1:1:::/bin/sh",
            "parse error at line 1, column 18\n  |\n1 | a:x:1:1:::/bin/sh\n  |                  ^\n\
             expected a line ending",
        ),
        (
            "\n",
            "parse error at line 1, column 1\n  |\n1 | \n  | ^\nexpected a user name",
        ),
    ];
    for (text, message) in rows {
        match read_users(rt.alloc(), text) {
            Ok(_) => assert!(rt; false),
            Err(fault) => {
                let printed = format!(in rt.alloc(); "{fault}");
                assert!(rt; matches!(&printed, Ok(printed) if printed.as_str() == message));
            }
        }
    }
}
