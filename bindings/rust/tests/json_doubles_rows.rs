//! Doubles of JSON numbers, from Rust. The expected results are those of Python's `float`, and of C's
//! `strtod`.
use pergidau::json;
use std::ffi::{c_char, CString};

extern "C" {
    fn strtod(text: *const c_char, end: *mut *mut c_char) -> f64;
}

/// Returns the bits of the double of a number.
fn bits_of(text: &str) -> u64 {
    json::parse(text, 0).unwrap().as_f64().unwrap().to_bits()
}

#[test]
fn doubles_of_numbers() {
    let rows = [
        ("0", 0),
        ("-0", 0x8000000000000000),
        ("-0.0e7", 0x8000000000000000),
        ("-2.50", 0xc004000000000000),
        // Halves between two doubles, and numbers next to them.
        ("9007199254740993", 0x4340000000000000),
        ("9007199254740995", 0x4340000000000002),
        ("9007199254740993.0000000000000000001", 0x4340000000000001),
        ("1.00000000000000011102230246251565404236316680908203124", 0x3ff0000000000000),
        ("1.00000000000000011102230246251565404236316680908203125", 0x3ff0000000000000),
        ("1.00000000000000011102230246251565404236316680908203126", 0x3ff0000000000001),
        ("1.00000000000000033306690738754696212708950042724609375", 0x3ff0000000000002),
        // Subnormal numbers.
        ("2.4703282292062327e-324", 0),
        ("2.4703282292062328e-324", 1),
        ("-4.9406564584124654e-324", 0x8000000000000001),
        ("7.4109846876186982e-324", 2),
        ("2.2250738585072011e-308", 0x000fffffffffffff),
        ("2.2250738585072012e-308", 0x0010000000000000),
        ("1e-400", 0),
        ("-1e-400", 0x8000000000000000),
        ("1.7976931348623158e308", 0x7fefffffffffffff),
        ("1.7976931348623159e308", 0x7ff0000000000000),
        ("1e400", 0x7ff0000000000000),
        ("-1E+400", 0xfff0000000000000),
    ];
    for (text, want) in rows {
        assert_eq!(bits_of(text), want, "{text}");
    }
    for text in ["null", "true", "\"1\"", "[1]", "{}"] {
        assert_eq!(json::parse(text, 1).unwrap().as_f64(), None, "{text}");
    }
}

/// A generator of numbers (xorshift).
struct Seed(u64);

impl Seed {
    fn next(&mut self) -> u64 {
        self.0 ^= self.0 << 13;
        self.0 ^= self.0 >> 7;
        self.0 ^= self.0 << 17;
        self.0
    }

    fn below(&mut self, most: u64) -> u64 {
        self.next() % most
    }

    /// Returns a number: any digits, any double, or a half between two doubles, and one next to it.
    fn number(&mut self) -> String {
        let sign = ["", "-"][self.below(2) as usize];
        let odd = (1 << 53 | self.next() >> 11) as u128 * 2 + 1;
        match self.below(4) {
            0 => {
                let (whole, part) = (self.next() >> self.below(64), self.next() >> self.below(64));
                format!("{sign}{whole}.{part}e{}", self.below(680) as i64 - 350)
            }
            1 => match f64::from_bits(self.next()) {
                double if double.is_finite() => format!("{double:e}"),
                _ => format!("{sign}1e308"),
            },
            2 => {
                let power = self.below(60) as u32;
                format!("{sign}{}{}", odd << power, ["", ".0", ".000001"][self.below(3) as usize])
            }
            _ => {
                let power = self.below(31) as u32;
                let digits = odd * 5u128.pow(power);
                format!("{sign}{digits}{}e-{power}", ["", ".0", ".000001"][self.below(3) as usize])
            }
        }
    }
}

#[test]
fn doubles_of_random_numbers() {
    let mut seed = Seed(0x2545f4914f6cdd1d);
    for _ in 0..100_000 {
        let text = seed.number();
        let of_c = CString::new(text.as_str()).unwrap();
        // SAFETY: the text ends with a zero byte, and the end may be null.
        let want = unsafe { strtod(of_c.as_ptr(), std::ptr::null_mut()) };
        assert_eq!(bits_of(&text), want.to_bits(), "{text}");
    }
}
