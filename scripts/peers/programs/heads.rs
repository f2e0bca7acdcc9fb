//! Prints the head that httparse finds in each text of standard input, which follows its length.
use std::io::Read;
fn main() {
    let mut bytes = Vec::new();
    std::io::stdin().read_to_end(&mut bytes).unwrap();
    let kind = std::env::args().nth(1).unwrap();
    let mut left = &bytes[..];
    while let Some((size, behind)) = left.split_first_chunk::<4>() {
        let (row, behind) = behind.split_at(u32::from_be_bytes(*size) as usize);
        left = behind;
        let mut fields = [httparse::EMPTY_HEADER; 64];
        let (taken, first, second) = if kind == "1" {
            let mut head = httparse::Request::new(&mut fields);
            let said = head.parse(row);
            (said, head.method.unwrap_or("").as_bytes().to_vec(),
             head.path.unwrap_or("").as_bytes().to_vec())
        } else {
            let mut head = httparse::Response::new(&mut fields);
            let said = head.parse(row);
            (said, head.code.unwrap_or(0).to_string().into_bytes(),
             head.reason.unwrap_or("").as_bytes().to_vec())
        };
        match taken {
            Ok(httparse::Status::Complete(_)) => {
                print!("{:?} {:?}", first, second);
                for it in fields.iter().filter(|it| !it.name.is_empty()) {
                    print!(" {:?} {:?}", it.name.as_bytes(), it.value);
                }
                println!();
            }
            _ => println!("none"),
        }
    }
}
