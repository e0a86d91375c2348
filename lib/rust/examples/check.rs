//! Checks files, and prints of each that it is accepted, or the place at which it is refused, and what stands there: cargo run --example
//! check -- FILE ..

use std::{env, fs, io};

fn main() -> io::Result<()> {
    for name in env::args().skip(1) {
        let source = fs::read(&name)?;
        let answer = rcap::check(&source);
        match (answer.status, answer.place) {
            (rcap::Status::Done, _) => println!("{name}: accepted, with a derivation of {} bytes", answer.out.len()),
            (status, Some(place)) => {
                println!(
                    "{name}: {status:?}, line {}, column {}, bytes {} to {}: {answer}",
                    place.line, place.column, place.offset, place.end_offset
                );
                println!("  {}", String::from_utf8_lossy(&source[place.bytes()]));
            }
            (status, None) => println!("{name}: {status:?}: {answer}"),
        }
    }
    Ok(())
}
