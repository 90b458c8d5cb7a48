//! One calendar, one match and one report, and a calendar that is refused.
use lokuwaine::{matches, report, Answer, OUTPUT, WORK};

fn main() {
    let calendar = b"BEGIN:VCALENDAR\r\nBEGIN:VEVENT\r\nDTSTART:20240311T073000Z\r\nDTEND:20240311T091500Z\r\nEND:VEVENT\r\nEND:VCALENDAR\r\n";
    // no range; the texts VCALENDAR and VEVENT; VEVENT below VCALENDAR; no property, no parameter
    let query = b"\x00\x02\x09VCALENDAR\x06VEVENT\x02\x00\x00\x00\x00\x00\x01\x00\x00\x00\x00";
    let mut work = vec![0; WORK];
    let mut out = vec![0; OUTPUT];

    println!("{:?}", matches(calendar, query, 0, &mut work));
    match report(calendar, 1_710_144_000, 1_710_180_000, 0, 1_710_050_400, &mut work, &mut out) {
        Answer::Length(n) => print!("{}", String::from_utf8_lossy(&out[..n])),
        other => println!("{other:?}"),
    }

    let damaged = b"BEGIN:VCALENDAR\r\nBEGIN:VEVENT\r\nDTSTART:20240230T073000Z\r\nEND:VEVENT\r\nEND:VCALENDAR\r\n";
    println!("{:?}", report(damaged, 1_710_144_000, 1_710_180_000, 0, 1_710_050_400, &mut work, &mut out));
}
