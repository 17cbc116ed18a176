//! Moves two pages to another node, by calls on numbers.

use numatrace::{Asking, Error, Machine};

/// Two nodes of four frames each: node 0 owns frames 0 to 3, node 1 frames 4 to 7.
const TOP: &str = r#"{"version":1,"machine":{"nodes":[4,4],"distance":[[10,20],[20,10]]}}"#;
const PAGES: [u64; 2] = [65536, 69632];

fn main() -> Result<(), Error> {
    let mut machine = Machine::open(TOP)?;
    machine.spawn(1, 100, 0, 0b11, false)?;
    machine.map(1, PAGES[0], 2, false)?;
    machine.write(1, PAGES[0], b"a")?;
    machine.write(1, PAGES[1], b"b")?;
    let (statuses, failed) = machine.move_pages(&Asking { caller: 1, pid: 0, flags: 2 }, &PAGES, &[1, 1])?;
    println!("failed {failed}: {} {}", statuses[0], statuses[1]);
    let mut byte = [0];
    machine.read(1, PAGES[1], &mut byte)?;
    println!("read {}", byte[0] as char);
    if let Err(Error::Refused(errno)) = machine.move_pages(&Asking { caller: 1, pid: 0, flags: 2 }, &PAGES[..1], &[7]) {
        println!("refused: -{errno}");
    }
    print!("{}", machine.step(r#"{"op":"free","node":0}"#)?);
    Ok(())
}
