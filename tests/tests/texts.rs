//! The crate `text`, through the C interface, against the vectors and against a plain Rust reader and writer.

use picker_tests::texts::{damage, fault, opposite, plain_chart, plain_read, plain_write, read, varied, write, Wrong};
use picker_tests::{cases, model, vectors, Chart, Random};

/// What a table holds before: numbers that no chart has.
fn rubbish() -> Vec<u32> {
    (0..768).map(|i| 0xDEAD_0000 + i).collect()
}

/// Reads a text and compares answer and table with the plain reader's.
fn compare(text: &[u8], table: &mut [u32], before: &[u32]) -> u32 {
    let expected = plain_read(text, Wrong::Not);
    let answer = read(text, table);
    match &expected {
        Ok(chart) => {
            assert_eq!(answer, Ok([chart.places as u64, chart.alarm as u64, chart.rows.len() as u64 / 6, 0]), "{}", shown(text));
            let (front, rest) = table.split_at_mut(chart.rows.len());
            assert_eq!(front, &chart.rows[..], "{}", shown(text));
            assert!(rest == &before[front.len()..], "entries past the rows: {}", shown(text));
            front.copy_from_slice(&before[..front.len()]);
            0
        }
        Err((number, position)) => {
            assert_eq!(answer, Err((*number, 0, *position)), "{}", shown(text));
            assert!(table == before, "a refusal wrote to the table: {}", shown(text));
            *number
        }
    }
}

fn shown(text: &[u8]) -> String {
    text.escape_ascii().to_string()
}

/// Every vector against the plain reader, whose charts are judged in both ways: by the quick test and by the slow one.
#[test]
fn vectors_of_texts_as_rendered() {
    for (text, answer) in vectors::texts() {
        let slow = plain_chart(&text, Wrong::Not).and_then(|chart| match model::fault(&chart) {
            (0, _) => Ok(chart),
            refused => Err(refused),
        });
        for read in [plain_read(&text, Wrong::Not), slow] {
            let read = read.map(|chart| [chart.places as u64, chart.alarm as u64, chart.rows.len() as u64 / 6]);
            assert_eq!(read.map_err(|(number, position)| (number, 0, position)), answer, "{}", shown(&text));
        }
    }
}

#[test]
fn vectors_of_texts() {
    let mut counts = [0; 2];
    for (text, answer) in vectors::texts() {
        let mut table = rubbish();
        assert_eq!(read(&text, &mut table), answer.map(|[places, alarm, rows]| [places, alarm, rows, 0]), "{}", shown(&text));
        match answer {
            Ok([places, alarm, rows]) => {
                back(&Chart { places: places as u32, alarm: alarm as u32, rows: table[..6 * rows as usize].to_vec() });
                counts[0] += 1;
            }
            Err(_) => {
                assert_eq!(table, rubbish(), "{}", shown(&text));
                counts[1] += 1;
            }
        }
    }
    assert!(counts[0] > 100 && counts[1] > 100, "only {counts:?} vectors");
}

/// Writes a faultless chart, compares the text with the plain writer's, and reads it back.
fn back(chart: &Chart) {
    let mut bytes = vec![0xA5u8; 8643];
    let expected = plain_write(chart);
    assert_eq!(write(chart, &mut bytes), Ok([expected.len() as u64, 0, 0, 0]), "{chart:?}");
    assert!(bytes[..expected.len()] == expected[..] && bytes[expected.len()..].iter().all(|b| *b == 0xA5), "{chart:?}");
    let mut table = rubbish();
    assert_eq!(read(&expected, &mut table), Ok([chart.places as u64, chart.alarm as u64, chart.rows.len() as u64 / 6, 0]));
    assert!(table[..chart.rows.len()] == chart.rows[..] && table[chart.rows.len()..] == rubbish()[chart.rows.len()..], "{chart:?}");
}

/// At least a million texts, made from valid ones by one to three changes.
#[test]
fn damaged_texts_as_modelled() {
    let mut random = Random::new(20264);
    let (before, mut table) = (rubbish(), rubbish());
    let mut seen = [0usize; 15];
    let mut told_apart = [(Wrong::LeadingZero, 0), (Wrong::ByteAfter, 0), (Wrong::RecordMissing, 0), (Wrong::BareLf, 0), (Wrong::SpareAny, 0), (Wrong::CountLater, 0)];
    for round in 0..cases(12_500) {
        let whole = plain_write(&model::chart(&mut random));
        for _ in 0..80 {
            let mut text = varied(&mut random, &whole);
            for _ in 0..1 + random.below(3) {
                damage(&mut random, &mut text);
            }
            seen[compare(&text, &mut table, &before) as usize] += 1;
            if round % 16 == 0 {
                for (wrong, count) in &mut told_apart {
                    *count += (plain_read(&text, *wrong).map(|c| c.rows) != plain_read(&text, Wrong::Not).map(|c| c.rows)) as usize;
                }
            }
        }
    }
    println!("texts by answer: {seen:?}; texts that tell a wrong reader: {told_apart:?}");
    assert!(seen.iter().sum::<usize>() >= 1_000_000);
    for number in [0, 1, 2, 3, 4, 5, 6, 7, 8, 11, 12, 13, 14] {
        assert!(seen[number] > 0, "no text was answered by {number}");
    }
    for (wrong, count) in told_apart {
        assert!(count > 0, "no text tells {wrong:?} from the right reader");
    }
}

/// Every byte of one small text changed to every other, every byte left out, every cut, every byte put in everywhere.
#[test]
fn every_small_change() {
    let (before, mut table) = (rubbish(), rubbish());
    let text = b"2,\"1\",2,0,0,0\r\n0,1,16,3,0,10\r\n0,0,17,3,0,10\r\n".to_vec();
    assert_eq!(compare(&text, &mut table, &before), 0);
    for at in 0..=text.len() {
        compare(&text[..at], &mut table, &before);
        for b in 0..=255 {
            let mut more = text.clone();
            more.insert(at, b);
            compare(&more, &mut table, &before);
            if at < text.len() {
                let mut other = text.clone();
                other[at] = b;
                compare(&other, &mut table, &before);
            }
        }
        if at < text.len() {
            let mut fewer = text.clone();
            fewer.remove(at);
            compare(&fewer, &mut table, &before);
        }
    }
}

#[test]
fn charts_written_and_read_back() {
    let mut random = Random::new(20265);
    let mut seen = [0usize; 22];
    for _ in 0..cases(20_000) {
        let mut chart = model::chart(&mut random);
        if random.below(20) == 0 {
            chart.rows.pop();
        }
        let expected = if chart.rows.len() % 6 != 0 { (21, 0) } else { fault(&chart) };
        seen[expected.0 as usize] += 1;
        if expected.0 == 0 {
            back(&chart);
        } else {
            let mut bytes = vec![0xA5u8; 8643];
            assert_eq!(write(&chart, &mut bytes), Err((expected.0, 0, expected.1)), "{chart:?}");
            assert!(bytes.iter().all(|b| *b == 0xA5), "a refusal wrote to the bytes: {chart:?}");
        }
    }
    for number in [0, 1, 4, 5, 6, 7, 8, 21] {
        assert!(seen[number] > 0, "no chart with refusal {number} was drawn");
    }
}

/// A chart of 64 places and 128 rows whose constants have ten digits.
fn largest() -> Chart {
    let rows = (0..64u32).flat_map(|p| [p, 63 - p, 16, 63, 0, u32::MAX - p, p, 63, 17, 63, 0, u32::MAX - p]).collect();
    Chart { places: 64, alarm: 63, rows }
}

#[test]
fn edges_of_texts() {
    back(&largest());
    let (before, mut table) = (rubbish(), rubbish());
    let text = plain_write(&largest());
    // More than 16,384 bytes are answered as their first 16,384.
    let mut long = text.clone();
    long.resize(20_000, b'7');
    assert_eq!(read(&long, &mut table), read(&long[..16384], &mut table));
    assert_eq!(read(&long, &mut table), Err((14, 0, text.len())));
    assert_eq!(table, before);
    // Fields of the first record, and of a row.
    for (text, answer) in [
        ("1,0,129,0,0,0", (2, 4)),
        ("1,0,0129,0,0,0", (13, 4)),
        ("1,0,\"129", (2, 5)),
        ("1,0,4294967296", (13, 4)),
        ("1,0,1,\"7", (13, 7)),
        ("1,0,0,0,0,0", (1, 0)),
        ("65,0,0,0,0,0\r\n", (1, 0)),
        ("1,0,1,0,0,0\r", (12, 12)),
        ("1,0,1,0,0,0", (14, 11)),
        ("1,0,1,0,0,0\r\n", (14, 13)),
        ("01x", (13, 0)),
        ("\u{feff}1", (12, 0)),
        ("1\"2\"", (12, 1)),
        ("\"\"", (12, 1)),
        ("", (11, 0)),
        // A number below 0 is written as the u32 of the same bits: there is no sign.
        ("1,0,1,0,0,0\r\n0,0,24,0,0,-1\r\n", (12, 24)),
        ("1,0,1,0,0,0\r\n0,0,24,0,0,\"-1\"\r\n", (12, 25)),
    ] {
        assert_eq!(read(text.as_bytes(), &mut table), Err((answer.0, 0, answer.1)), "{text}");
        assert_eq!(plain_read(text.as_bytes(), Wrong::Not).map(|_| ()), Err(answer), "{text}");
    }
    // Lent lengths, before everything else.
    for len in [0, 6, 767, 769] {
        let mut other: Vec<u32> = (0..len).collect();
        assert_eq!(read(b"", &mut other), Err((21, 0, 0)));
        assert!(other.iter().enumerate().all(|(i, x)| *x == i as u32));
    }
    let mut bytes = vec![0xA5u8; 8642];
    assert_eq!(write(&largest(), &mut bytes), Err((21, 0, 0)));
    assert_eq!(write(&Chart { places: 0, alarm: 0, rows: vec![0] }, &mut vec![0; 9000]), Err((21, 0, 0)));
    assert!(bytes.iter().all(|b| *b == 0xA5));
}

/// More bytes than a text needs: only those written are touched.
#[test]
fn written_into_more_bytes() {
    let mut random = Random::new(20279);
    let mut all = vec![largest()];
    for _ in 0..cases(200) {
        let chart = model::chart(&mut random);
        all.extend((fault(&chart).0 == 0).then_some(chart));
    }
    assert!(all.len() > 20, "only {} faultless charts", all.len());
    for chart in all {
        let expected = plain_write(&chart);
        for lent in [8644, 9000, 16_384, 65_537] {
            for paint in [0x00, 0xA5] {
                let mut bytes = vec![paint; lent];
                assert_eq!(write(&chart, &mut bytes), Ok([expected.len() as u64, 0, 0, 0]), "{lent} bytes: {chart:?}");
                let (front, rest) = bytes.split_at(expected.len());
                assert!(front == expected, "{lent} bytes: {chart:?}");
                assert!(rest.iter().all(|b| *b == paint), "bytes past the text, of {lent}: {chart:?}");
            }
        }
    }
}

/// Too few bytes come before any fault of the chart, though its text were short.
#[test]
fn too_few_bytes_for_a_faulty_chart() {
    for (chart, (number, position)) in model::faulty() {
        for lent in [0, 1, 20, 8642] {
            let mut bytes = vec![0xA5u8; lent];
            assert_eq!(write(&chart, &mut bytes), Err((21, 0, 0)), "{lent} bytes: {chart:?}");
            assert!(bytes.iter().all(|b| *b == 0xA5), "a refusal wrote to the bytes: {chart:?}");
        }
        assert_eq!(write(&chart, &mut vec![0; 8643]), Err((number, 0, position)), "{chart:?}");
    }
}

/// The quick test of two assumptions agrees with the slow one.
#[test]
fn opposite_as_modelled() {
    let mut random = Random::new(20266);
    for _ in 0..cases(3000) {
        let f = model::operation(&mut random, &model::CODES[6..]);
        let g = model::operation(&mut random, &model::CODES[6..]);
        assert_eq!(opposite(f, g), model::exactly_one(f, g), "{f:?} {g:?}");
    }
}
