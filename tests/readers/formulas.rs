//! Runs of the program over formulas.
use crate::runs::answers;
use std::alloc::Global;
use std::process::Abort;
use std::test::Fail;

/// Checks the line or the error of a run over a formula, and the status.
fn calculates(rt: &impl Abort, alloc: Global, bytes: &[u8], line: &str, error: &str, status: u8) {
    answers(rt, alloc, (&["calc"], bytes), (line, error, status));
}

#[test]
fn formulas(rt: HostRuntime) {
    let rows = [
        (" 2 + 3 * 4 ", "14\n"),
        ("2^3^2", "512\n"),
        ("-3!", "-6\n"),
        ("-2^2", "4\n"),
        ("3!!", "720\n"),
        ("7%-3", "1\n"),
        ("-7%3", "-1\n"),
        ("2*3%4", "2\n"),
        ("0^0", "1\n"),
        ("1+1=2", "1\n"),
        ("2*3=6", "1\n"),
        ("-1=1", "0\n"),
        (" 4 = 2^2 ", "1\n"),
        ("1=1!", "1\n"),
        ("\t1\r\n", "1\n"),
        ("-9223372036854775807-1", "-9223372036854775808\n"),
    ];
    for (text, line) in rows {
        calculates(&rt, rt.alloc(), text.as_bytes(), line, "", 0);
    }
}

#[test]
fn refused_formulas(rt: HostRuntime) {
    let rows = [
        (b"1/0".as_slice(), "refused at 3\n"),
        (b"1 2", "refused at 2\n"),
        (b"1+", "refused at 2\n"),
        (b"", "refused at 0\n"),
        (b"-9223372036854775808", "refused at 1\n"),
        (b"21!", "refused at 3\n"),
        (b"2^-1", "refused at 4\n"),
        (b"5 % 0", "refused at 5\n"),
        (b"1=2=1", "refused at 3\n"),
        (b"1=", "refused at 2\n"),
        // a character of two bytes
        ("1+\u{e9}".as_bytes(), "refused at 2\n"),
        // input that is not UTF-8 is rejected at its first invalid byte, regardless of the text
        // before it
        (b"1 2\xFF", "refused at 3\n"),
        (b"\xFF", "refused at 0\n"),
        (b"1\xC3", "refused at 1\n"),
    ];
    for (text, error) in rows {
        calculates(&rt, rt.alloc(), text, "", error, 1);
    }
}

#[test]
fn the_longest_formula(rt: HostRuntime) -> Result<(), Fail> {
    let alloc = rt.alloc();
    let mut longest = vec![in alloc; b' '; 4_097]?;
    longest[0] = b'7';
    calculates(&rt, alloc, longest.as_slice(), "", "input too long\n", 2);
    let _last = longest.pop();
    calculates(&rt, alloc, longest.as_slice(), "7\n", "", 0);
    Ok(())
}
