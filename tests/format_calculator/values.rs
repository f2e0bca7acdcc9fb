//! Formulas, their values and the offsets of errors.
use format_calculator::calc::value;
use format_calculator::fault::ReadError;
use test_support::refusing::Refusing;
use test_support::rows::same;

const ROWS: &[(&str, Result<i64, ReadError>)] = &[
    (" 2 + 3 * 4 ", Ok(14)),
    ("2^3^2", Ok(512)),
    ("-3!", Ok(-6)),
    ("-2^2", Ok(4)),
    ("1/0", Err(ReadError::Invalid(3))),
    ("1 2", Err(ReadError::Invalid(2))),
    ("1+", Err(ReadError::Invalid(2))),
    ("", Err(ReadError::Invalid(0))),
    ("-9223372036854775808", Err(ReadError::Invalid(1))),
    ("3!!", Ok(720)),
    ("7%-3", Ok(1)),
    ("-7%3", Ok(-1)),
    ("2*3%4", Ok(2)),
    ("0^0", Ok(1)),
    ("21!", Err(ReadError::Invalid(3))),
    ("2^-1", Err(ReadError::Invalid(4))),
    ("5 % 0", Err(ReadError::Invalid(5))),
    ("1+1=2", Ok(1)),
    ("2*3=6", Ok(1)),
    ("-1=1", Ok(0)),
    (" 4 = 2^2 ", Ok(1)),
    ("1=1!", Ok(1)),
    ("1=2=1", Err(ReadError::Invalid(3))),
    ("1=", Err(ReadError::Invalid(2))),
    ("-3+-3*4", Ok(-15)),
    ("+2+3*4", Ok(14)),
    ("2*3+4", Ok(10)),
    ("20!", Ok(2432902008176640000)),
    ("7!", Ok(5040)),
    ("007", Ok(7)),
    ("2^62", Ok(4611686018427387904)),
    ("2^63", Err(ReadError::Invalid(4))),
    ("-1^4294967297", Ok(-1)),
    ("-1^9223372036854775806", Ok(1)),
    ("2^9223372036854775807", Err(ReadError::Invalid(21))),
    ("9223372036854775807+1", Err(ReadError::Invalid(21))),
    ("(1)", Err(ReadError::Invalid(0))),
];

#[test]
fn value_of_formulas(rt: HostRuntime) {
    for (text, want) in ROWS {
        same(&rt, "value", text, value(rt.alloc(), text), *want);
    }
}

/// Every allocation fails in turn; the error is then out of memory.
#[test]
fn value_wants_memory(rt: HostRuntime) {
    let mut met = true;
    let mut n = 0u64;
    while met {
        let heap = Refusing::once(rt.alloc(), n);
        let got = value(&heap, "-3!+2*4");
        met = heap.met();
        let want = if met { Err(ReadError::NoMemory) } else { Ok(2) };
        same(&rt, "value", "-3!+2*4", got, want);
        n += 1;
    }
    assert!(rt; n > 1);
    let heap = Refusing::always_from(rt.alloc(), 0);
    same(&rt, "value", "7!", value(&heap, "7!"), Ok(5040));
    same(&rt, "value", "-1", value(&heap, "-1"), Err(ReadError::NoMemory));
}

/// Twenty thousand operators, one in another.
#[test]
fn value_of_deep_formulas(rt: HostRuntime) {
    let mut text = String::new(rt.alloc());
    for _ in 0..20_000 {
        if text.push('-').is_err() {
            return;
        }
    }
    if text.push('1').is_err() {
        return;
    }
    same(&rt, "value", "-..-1", value(rt.alloc(), text.as_str()), Ok(1));
    let mut text = String::new(rt.alloc());
    if text.push('1').is_err() {
        return;
    }
    for _ in 0..20_000 {
        if text.push('^').is_err() || text.push('1').is_err() {
            return;
        }
    }
    same(&rt, "value", "1^..^1", value(rt.alloc(), text.as_str()), Ok(1));
}
