//! Writing a bank, which the original has not: document 02's T-05 as the program reads it.

mod common;

use common::{OPEN, answers, hex, last};

const HEADER: &str = "B14C0304050607080901";

/// Entries of these ids and kinds with these payloads, in a buffer of that room.
fn record(room: u16, parts: &[(u16, u8, &[u8])]) -> String {
    let entry = |(id, kind, payload): &(u16, u8, &[u8])| {
        format!("{id:04X}{kind:02X}11C801B80096{:08X}", payload.len())
    };
    let entries: String = parts.iter().map(entry).collect();
    let payloads: String = parts.iter().map(|part| hex(part.2)).collect();
    format!("83{HEADER}{room:04X}{:02X}{entries}{payloads}", parts.len())
}

fn unwritten(number: u8, room: usize) -> String {
    format!("{number:02X}00000000{}", "A5".repeat(room))
}

const TWO: [(u16, u8, &[u8]); 2] = [(0x0203, 2, &[7, 8, 9]), (0x0102, 0, &[5])];

#[test]
fn a_bank_worked_out() {
    let bank = format!(
        "{HEADER}{}{}05070809",
        "02010011C800B80196002A0000000100", // 0x0102, its payload at 42
        "03020211C800B80196002B0000000300", // 0x0203, at 43
    );
    assert_eq!(last(&[&record(46, &TWO)]), format!("000000002E{bank}"));
    let [first, second] = TWO;
    let turned = record(48, &[second, first]);
    assert_eq!(last(&[&turned]), format!("000000002E{bank}A5A5"));
    let none = format!("000000000A{HEADER}A5");
    assert_eq!(last(&[&record(11, &[])]), none);
}

/// The original finds each entry and its payload in the bank.
#[test]
fn the_original_reads_it() {
    let written = last(&[&record(46, &TWO)]);
    let lend = format!("12{}", &written[10..]);
    let set = "1100001F400002";
    let found = |calls: &[&str]| answers(&[&[OPEN, &lend, set], calls].concat()).split_off(2);
    assert_eq!(
        found(&[
            "1A0102",
            "1A0203",
            "1A0104",
            "1B0000002A0001",
            "1B0000002B0003"
        ]),
        [
            "000011C801B800960000002A00000001",
            "000211C801B800960000002B00000003",
            "08",
            "0005",
            "00070809"
        ]
    );
}

#[test]
fn refusals() {
    assert_eq!(last(&[&record(45, &TWO)]), unwritten(14, 45));
    assert_eq!(last(&[&record(9, &[])]), unwritten(14, 9));
    let entry: (u16, u8, &[u8]) = (7, 6, &[]);
    assert_eq!(last(&[&record(26, &[entry])]), unwritten(13, 26));
    assert_eq!(last(&[&record(0, &[entry])]), unwritten(13, 0));
    assert_eq!(last(&[&record(60, &[TWO[0], TWO[0]])]), unwritten(13, 60));
    assert_eq!(last(&[&(record(60, &TWO) + "00")]), unwritten(13, 60));
    let whole = record(60, &TWO);
    assert_eq!(last(&[&whole[..whole.len() - 2]]), unwritten(13, 60));
    let many: Vec<(u16, u8, &[u8])> = (0..65).map(|id| (id, 0, &[][..])).collect();
    assert_eq!(last(&[&record(2_000, &many)]), unwritten(13, 2_000));
    assert!(last(&[&record(2_000, &many[1..])]).starts_with("000000040A"));
    // 2^32 − 1 and 1 add up to the nothing that is lent if they wrap
    let [long, one] = [(1, u32::MAX), (2, 1)]
        .map(|(id, length)| format!("{id:04X}{}{length:08X}", "00".repeat(7)));
    let wraps = format!("83{HEADER}002A02{long}{one}");
    assert_eq!(last(&[&wraps]), unwritten(13, 42));
}

#[test]
fn bad_lines() {
    for record in [
        format!("83{HEADER}100100"),
        format!("83{HEADER}0000"),
        format!("83{HEADER}0000010001000000000000000000"),
        format!("83{HEADER}0000000"),
        record(0, &[]) + &"00".repeat(4_084),
    ] {
        assert_eq!(last(&[&record, "4500"]), "FFFF", "{record}");
    }
    assert_eq!(
        last(&[&(record(0, &[]) + &"00".repeat(4_083))]),
        unwritten(13, 0)
    );
}
