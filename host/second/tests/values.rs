//! Byte classes, the reading of values, and their spelling.

use second::class::{class, Class, CLASSES};
use second::value::{read_value, spell, BadNumber};

#[test]
fn the_table_of_classes_follows_its_rule() {
    // Each class with the first and last byte of its ranges, as document 01 names them.
    let ranges: [(Class, &[(u8, u8)]); 5] = [
        (Class::Space, &[(9, 9), (10, 10), (13, 13), (32, 32)]),
        (Class::Digit, &[(48, 57)]),
        (Class::Capital, &[(65, 90)]),
        (Class::Small, &[(97, 122)]),
        (
            Class::Other,
            &[(33, 47), (58, 64), (91, 96), (123, 126), (160, 255)],
        ),
    ];
    assert_eq!(CLASSES.len(), 256);
    for byte in 0..=255 {
        let in_range = |&(from, to): &(u8, u8)| (from..=to).contains(&byte);
        let found = ranges
            .iter()
            .find(|(_, ranges)| ranges.iter().any(in_range));
        let wanted = found.map_or(Class::Refused, |(class, _)| *class);
        assert_eq!(class(byte), wanted, "{byte}");
    }
}

#[test]
fn a_value_reads_as_its_decoded_bytes_without_trailing_spaces() {
    let values: [(&[u8], &[u8]); 31] = [
        (b"", b""),
        (b" ", b""),
        (b"a b", b"a b"),
        (b" a ", b" a"),
        (b"a \t\r\n ", b"a"),
        (b"a\tb", b"a b"),
        (b"a\nb", b"a b"),
        (b"a\rb", b"a b"),
        (b"a\r\nb", b"a b"),
        (b"a\n\rb", b"a  b"),
        (b"a\r\r\nb", b"a  b"),
        (b"a\r\n\nb", b"a  b"),
        (b"a&#32;", b"a"),
        (b"&#32;", b""),
        (b"a&#x20;&#032; ", b"a"),
        (b"a\xa0", b"a\xa0"),
        (b"a&#160;", b"a\xa0"),
        (b"a&#xA0; ", b"a\xa0"),
        (b"&amp;", b"&"),
        (b"&lt;&gt;&quot;&apos;", b"<>\"'"),
        (b"&amp;amp;", b"&amp;"),
        (b"&amp;#38;", b"&#38;"),
        (b"&#38;amp;", b"&amp;"),
        (b"&#38;", b"&"),
        (b"&#x26;", b"&"),
        (b"&#00000000000000000000038;", b"&"),
        (b"&#126;&#x7e;", b"~~"),
        (b"&#255;&#xfF;", b"\xff\xff"),
        (b"a;b#", b"a;b#"),
        (b">\"'", b">\"'"),
        (b"\xe4\xdf", b"\xe4\xdf"),
    ];
    for (raw, value) in values {
        assert_eq!(
            read_value(raw).as_deref(),
            Ok(value),
            "{}",
            String::from_utf8_lossy(raw)
        );
    }
}

#[test]
fn a_number_outside_the_decoded_bytes_is_told() {
    let numbers = [
        "0",
        "9",
        "10",
        "13",
        "31",
        "127",
        "128",
        "159",
        "256",
        "288",
        "65568",
        "4294967296",
        "4294967328",
        "18446744073709551648",
        "99999999999999999999999999999999",
    ];
    for number in numbers {
        assert_eq!(
            read_value(format!("a&#{number};").as_bytes()),
            Err(BadNumber),
            "{number}"
        );
    }
    for number in [
        "0",
        "9",
        "a",
        "D",
        "1f",
        "7F",
        "80",
        "9f",
        "100",
        "120",
        "100000020",
    ] {
        assert_eq!(
            read_value(format!("&#x{number};b").as_bytes()),
            Err(BadNumber),
            "{number}"
        );
    }
    for number in [32, 126, 160, 255] {
        assert_eq!(
            read_value(format!("&#{number};x").as_bytes()),
            Ok(vec![number, b'x'])
        );
    }
}

#[test]
fn a_value_is_spelled_with_three_references_alone() {
    assert_eq!(
        spell(b"a&b<c>d\"e'f~\xa0\xe4"),
        b"a&amp;b&lt;c>d&quot;e'f~\xa0\xe4"
    );
}

#[test]
fn every_spelled_value_reads_as_itself() {
    let all: Vec<u8> = (32..=126).chain(160..=255).collect();
    assert_eq!(read_value(&spell(&all)), Ok(all));
}
