//! Evaluates a formula, and parses the head of a request.
use pergidau::http::{self, Field};
use pergidau::{calc, Error};

fn main() -> Result<(), Error> {
    for formula in ["2 + 3 * 4", "1 / 0"] {
        match calc::value(formula) {
            Ok(value) => println!("{formula} is {value}"),
            Err(error) => {
                let position = error.position(formula).map(|it| it.to_string()).unwrap_or_default();
                println!("{formula}: invalid input at {position}");
            }
        }
    }
    let request = b"GET /hello.txt HTTP/1.1\r\nHost: www.example.com\r\nAccept: *\r\n\r\n";
    let mut fields = [Field::default(); 16];
    let head = http::head(request, &mut fields)?;
    println!("{} has", String::from_utf8_lossy(head.target()));
    for (name, value) in head.fields() {
        let (name, value) = (String::from_utf8_lossy(name), String::from_utf8_lossy(value));
        println!("    {name} = {value}");
    }
    Ok(())
}
