// tools/build && rustc -O -o target/example rust/example.rs -L native=target/staticlib -l static=interface && target/example samples/pairs.sheet
#[allow(dead_code)]
mod breezedrum;

fn main() {
    let path = std::env::args().nth(1).expect("a sheet's path");
    let sheet = std::fs::read(path).expect("a sheet");
    let mut table = [0u64; 512];
    let read = breezedrum::read_sheet(&sheet, &mut table);
    if read.number != 0 {
        println!("refused: number {}, place {}", read.number, read.place);
        return;
    }
    let verdict = breezedrum::verdict(&table[..read.count as usize], 0, 1_000_000);
    match (verdict.number, verdict.answer) {
        (0, 1) => println!("every two quorums share an archive ({} visits)", verdict.visits),
        (0, _) => println!("two quorums share none: {:?} and {:?}", breezedrum::ids(verdict.first), breezedrum::ids(verdict.second)),
        (number, _) => println!("no answer: number {number}"),
    }
    // A report that does not fit is a 10, whose count is the room it needs.
    let mut text = vec![0u8; 4096];
    let mut report = breezedrum::report(&sheet, &mut text);
    if report.number == 10 {
        text.resize(report.count as usize, 0);
        report = breezedrum::report(&sheet, &mut text);
    }
    print!("{}", String::from_utf8_lossy(&text[..report.count as usize]));
}
