//! Each call, and each refusal that a call can answer, with its values.

use pottagewing::*;

const IMAGE: [u8; 8] = [0x01, 0x02, 0x00, 0x41, 0x64, 0x80, 0xF9, 0xA0];
const MARKS: [u8; 8] = [2, 0, 0, 0, 2, 2, 0, 2];
const MODE: Mode = Mode::Unwrapped;
const LISTING: &str = "L\t0000\nI\t0000\t0102\tbr\t0004\nD\t0002\t0041\nL\t0004\nI\t0004\t64\tinc\t@R0\nI\t0005\t80F9\tbz\t0000\nI\t0007\tA0\tret\n";
const BP: u8 = 0x68;
const BR: u8 = 0x01;
const BRF: u8 = 0x11;
const JMP: u8 = 0x28;
const RET: u8 = 0xA0;

#[test]
fn instructions() {
    let not1 = Instruction {
        form: Form::Not1,
        size: 2,
        operands: [0x10D, 0, 0],
    };
    assert_eq!(decode(&[0xB8, 0x0D, 0x21]), Ok(not1));
    assert_eq!(decode(&[]), Err(Refusal::Nothing));
    let cut = Refusal::CutOff {
        position: 0,
        first: BP,
        missing: 2,
    };
    assert_eq!(decode(&[BP]), Err(cut));

    let mut room = [9; 4];
    assert_eq!(encode(BP, [0x121, 7, -2], &mut room), Ok(3));
    assert_eq!(room, [0x7F, 0x21, 0xFE, 9]);
    assert_eq!(
        encode(BP, [0; 3], &mut []),
        Err(Refusal::NoRoom { needed: 3 })
    );
    let unfit = Refusal::Unfit {
        operand: 1,
        number: 128,
    };
    assert_eq!(encode(BR, [128, 0, 0], &mut room), Err(unfit));
}

#[test]
fn operands() {
    let brf = Instruction {
        form: Form::Brf,
        size: 3,
        operands: [0xFFFE, 0, 0],
    };
    assert_eq!(resolve(MODE, BRF, [0; 3], 3), Ok(brf));
    let br = Instruction {
        form: Form::Br,
        size: 2,
        operands: [7, 0, 0],
    };
    assert_eq!(resolve(Mode::Wrapping, BR, [5, 0, 0], 65_534), Ok(br));
    assert_eq!(
        resolve(MODE, BR, [5, 0, 0], 65_534),
        Err(Refusal::TooFar { offset: -65_529 })
    );
    assert_eq!(
        resolve(MODE, BR, [-1, 0, 0], 2),
        Err(Refusal::NoAddress { number: -1 })
    );
    let page = Refusal::OtherPage {
        base: 0,
        address: 15,
    };
    assert_eq!(resolve(MODE, JMP, [0xF000, 0, 0], 2), Err(page));
    let past = Refusal::PastMemory {
        position: u64::from(u32::MAX),
    };
    assert_eq!(resolve(MODE, RET, [0; 3], u32::MAX), Err(past));

    let list = |mode, position, first, field| {
        let found = targets(mode, position, first, [field, 0, 0]).expect("targets");
        found.list().to_vec()
    };
    assert_eq!(list(MODE, 65_534, 0x80, 127), [65_663, 65_536]);
    assert_eq!(list(Mode::Wrapping, 65_534, 0x80, 127), [127, 0]);
    assert_eq!(list(MODE, 0, RET, 0), []);
    assert_eq!(
        targets(MODE, u32::MAX, 0x21, [0; 3]),
        Err(Refusal::PastMemory {
            position: 4_294_967_298
        })
    );
}

#[test]
fn tracing() {
    let mut marks = [9; 8];
    let mut order = [9; 8];
    assert_eq!(start(&IMAGE, &mut marks, &[0, 7], &[7]), Ok(1));
    assert_eq!(
        marks,
        [Mark::Waiting as u8, 0, 0, 0, 0, 0, 0, Mark::Pinned as u8]
    );
    let stepped = Stepped {
        mark: Mark::Traced,
        waiting: 1,
    };
    assert_eq!(step(MODE, &IMAGE, &mut marks, 0), Ok(stepped));
    for (position, mark) in [(0, Mark::Traced), (7, Mark::Pinned), (9, Mark::Untouched)] {
        assert_eq!(
            step(MODE, &IMAGE, &mut marks, position),
            Err(Refusal::NotWaiting { mark })
        );
    }
    let ran = |ended, steps, noted| {
        Ok(Ran {
            ended,
            steps,
            noted,
        })
    };
    assert_eq!(
        run(MODE, &IMAGE, &mut marks, &mut order, &[0], &[], 8),
        ran(Ended::Finished, 4, 4)
    );
    assert_eq!((marks, order), (MARKS, [0, 4, 5, 7, 9, 9, 9, 9]));
    assert_eq!(
        run(MODE, &IMAGE, &mut marks, &mut order, &[0], &[], 1),
        ran(Ended::Stopped, 1, 2)
    );
    assert_eq!(
        run(MODE, &IMAGE, &mut marks, &mut [], &[0], &[], 8),
        Err(Refusal::ShortOrder { length: 0 })
    );
    assert_eq!(
        run(MODE, &[0x00, BP], &mut marks, &mut order, &[0], &[], 8),
        Err(Refusal::CutOff {
            position: 1,
            first: BP,
            missing: 2
        })
    );
    let swept = Swept {
        sweeps: 2,
        steps: 4,
    };
    assert_eq!(sweep(MODE, &IMAGE, &mut marks, &[0], &[]), Ok(swept));
    assert_eq!(marks, MARKS);
}

#[test]
fn views() {
    let mut room = [9; 8];
    assert_eq!(mask(&IMAGE, &MARKS, &mut room), Ok(8));
    assert_eq!(room, [1, 1, 0, 0, 1, 1, 1, 1]);
    assert_eq!(data_run(&IMAGE, &room, 2), 2);
    assert_eq!(target_marks(MODE, &IMAGE, &MARKS, &mut room), Ok(8));
    assert_eq!(room, [1, 0, 0, 0, 1, 0, 0, 0]);
    let mut places = [9; 3];
    assert_eq!(arrivals(MODE, &IMAGE, &MARKS, 0, &mut places), Ok(1));
    assert_eq!(places, [5, 9, 9]);
    let over = [0x22, 0x01, 0x00, RET];
    assert_eq!(overlaps(&over, &[2, 0, 2, 2], 0, &mut places), Ok(1));
    assert_eq!(places, [2, 9, 9]);
    assert_eq!(
        overlaps(&over, &[2, 0, 2, 2], 0, &mut []),
        Err(Refusal::NoRoom { needed: 1 })
    );

    let long = vec![0; IMAGE_LIMIT + 1];
    assert_eq!(
        mask(&long, &MARKS, &mut room),
        Err(Refusal::LongImage {
            length: IMAGE_LIMIT + 1
        })
    );
    assert_eq!(
        mask(&IMAGE, &MARKS[1..], &mut room),
        Err(Refusal::ShortMarks { length: 7 })
    );
    assert_eq!(
        mask(&IMAGE, &[2, 3, 0, 0, 0, 0, 0, 5], &mut room),
        Err(Refusal::Damaged { position: 1 })
    );
}

#[test]
fn listings() {
    let text = listing(MODE, &IMAGE, &MARKS, Arrivals::Declined).expect("a listing");
    assert_eq!(String::from_utf8_lossy(&text), LISTING);
    let with = listing(MODE, &IMAGE, &MARKS, Arrivals::Chosen).expect("a listing");
    assert!(String::from_utf8_lossy(&with).contains("A\t0000\t0005\n"));
    let mut room = vec![9; LISTING_ROOM * IMAGE.len()];
    assert_eq!(
        listing_into(MODE, &IMAGE, &MARKS, Arrivals::Declined, &mut room),
        Ok(text.len())
    );
    assert!(room.starts_with(&text));
    assert_eq!(listing(MODE, &[], &[], Arrivals::Chosen), Ok(vec![]));
    assert_eq!(
        listing(MODE, &IMAGE, &[], Arrivals::Chosen),
        Err(Refusal::ShortMarks { length: 0 })
    );

    assert_eq!(list_text(b"0000\n0102004164\n80F9A0\n"), text);
    assert_eq!(list_text(b"bad"), b"R\t13\n");
    assert_eq!(
        list_text_into(b"bad", &mut []),
        Err(Refusal::NoRoom { needed: 5 })
    );

    let (mut image, mut marks) = ([9; 8], [9; 8]);
    assert_eq!(read_back(MODE, &text, 8, &mut image, &mut marks), Ok(7));
    assert_eq!((image, marks), (IMAGE, MARKS));
    assert_eq!(
        read_back(MODE, b"L\t0000\nbad\n", 8, &mut image, &mut marks),
        Err(Refusal::MalformedLine { line: 2 })
    );
    assert_eq!(
        read_back(MODE, b"D\t0008\t00\n", 8, &mut image, &mut marks),
        Err(Refusal::LinePastEnd { line: 1 })
    );
}

#[test]
fn code_lines() {
    let bytes = [0x80, 0xF9, 0xA0];
    let line = b"I\t0005\t80F9\tbz\t0000\n";
    assert_eq!(code_line(MODE, 5, &bytes), Ok(line.to_vec()));
    let mut room = [9; CODE_LINE_MOST];
    assert_eq!(code_line_into(MODE, 5, &bytes, &mut room), Ok(line.len()));
    assert!(room.starts_with(line));
    assert_eq!(
        code_line_into(MODE, 5, &bytes, &mut room[..5]),
        Err(Refusal::NoRoom { needed: line.len() })
    );
    let wrapped = code_line(Mode::Wrapping, 0, &[BR, 0x80]);
    assert_eq!(wrapped, Ok(b"I\t0000\t0180\tbr\tFF82\n".to_vec()));
    assert_eq!(code_line(MODE, 0, &[]), Err(Refusal::Nothing));
    let cut = Refusal::CutOff {
        position: 0,
        first: BP,
        missing: 1,
    };
    assert_eq!(code_line(MODE, u32::MAX, &[BP, 0]), Err(cut));
    assert_eq!(
        code_line(MODE, 65_536, &[RET]),
        Err(Refusal::PastMemory { position: 65_537 })
    );
}

#[test]
fn lines() {
    let mut place = Place::START;
    let mut lines = vec![];
    while let Some(line) = place.read_line(MODE, LISTING.as_bytes()).expect("a line") {
        lines.push((line.letter as u8 as char, line.position, line.count));
    }
    let expected = [
        ('L', 0, 0),
        ('I', 0, 2),
        ('D', 2, 2),
        ('L', 4, 0),
        ('I', 4, 1),
        ('I', 5, 2),
        ('I', 7, 1),
    ];
    assert_eq!(lines, expected);
    let after = [LISTING.len() as u64, 8, 7, u64::from(b'I')];
    assert_eq!(place, Place(after));
    assert_eq!(after[PLACE_AT], LISTING.len() as u64);

    let bad = b"L\t0000\nbad\n";
    let mut place = Place::START;
    let first = place.read_line(MODE, bad).expect("a line").expect("one");
    assert_eq!((first.letter, first.count), (Letter::Label, 0));
    let second = place;
    assert_eq!(
        place.read_line(MODE, bad),
        Err(Refusal::MalformedLine { line: 2 })
    );
    assert_eq!(place, second);
}

#[test]
fn inputs() {
    let text = b"0000\t0004\n0102004164\n80F9A0\n";
    assert_eq!(parse(text), Ok((vec![0, 4], IMAGE.to_vec())));
    let (mut entries, mut image) = ([9; MOST_ENTRIES], [9; MOST_BYTES]);
    let held = Input {
        entries: 2,
        bytes: 8,
    };
    assert_eq!(parse_into(text, &mut entries, &mut image), Ok(held));
    assert_eq!((entries[..3].to_vec(), image[8]), (vec![0, 4, 9], 9));
    assert_eq!(parse(b""), Ok((vec![], vec![])));
    assert_eq!(
        parse(b"0000\n0102\n010\n"),
        Err(Refusal::MalformedInput { line: 3 })
    );
    let short = numbers::parse(text, &mut entries[..1], &mut image);
    assert_eq!(short, Answer::new(Answer::NO_ROOM, &[2, 8]));

    let lines = b"010200416480F9A0\n";
    assert_eq!(unlist_text(LISTING.as_bytes(), 8), lines);
    let mut room = [9; 17];
    assert_eq!(
        unlist_text_into(LISTING.as_bytes(), 8, &mut room),
        Ok(lines.len())
    );
    assert_eq!(&room, lines);
    assert_eq!(
        unlist_text_into(LISTING.as_bytes(), 8, &mut []),
        Err(Refusal::NoRoom { needed: 17 })
    );
    assert_eq!(unlist_text(LISTING.as_bytes(), 7), b"R\t16\t7\n");
    assert_eq!(unlist_text(b"bad", 7), b"R\t15\t1\n");
}

#[test]
fn reports() {
    let text = b"N\tSample\n0000\n0102004164\n80F9A0\n\nN\tCut\n0000\n6800\n";
    let report = b"Sample\t8\t4\t6\t2\t0\t2\nCut\tR\t5\nT\t8\t4\t6\t2\t0\t2\t1\t1\n";
    assert_eq!(report_text(text), report);
    let mut room = vec![9; report.len()];
    assert_eq!(report_text_into(text, &mut room), Ok(report.len()));
    assert_eq!(room, report);
    assert_eq!(
        report_text_into(text, &mut room[1..]),
        Err(Refusal::NoRoom {
            needed: report.len()
        })
    );
}

#[test]
fn maps() {
    let mut words = [9; 2];
    assert_eq!(map_build(&IMAGE, &MARKS, &mut words), Ok(1));
    assert_eq!(words, [0xF3, 9]);
    assert_eq!(map_test(&words, 8, 1), Ok(true));
    assert_eq!(map_test(&words, 8, 2), Ok(false));
    assert_eq!(map_count(&words, 8, 0, 8), Ok(6));
    assert_eq!(map_first_data(&words, 8, 0), Ok(2));
    assert_eq!(map_first_data(&words, 8, 4), Ok(8));
    assert_eq!(
        map_count(&words, 8, 5, 4),
        Err(Refusal::Outside { position: 5 })
    );
    assert_eq!(
        map_test(&[], IMAGE_LIMIT as u32, 0),
        Err(Refusal::NoRoom {
            needed: IMAGE_LIMIT / WORD_BITS
        })
    );
    words[0] = 0;
    assert_eq!(map_update(&IMAGE, &MARKS, &mut words, 5), Ok(2));
    assert_eq!(words, [0x60, 9]);
    assert_eq!(
        map_update(&IMAGE, &MARKS, &mut words, 1),
        Err(Refusal::Outside { position: 1 })
    );
}

#[test]
fn logs() {
    let log = b"P\t0000\nP\t0004\nP\t0005\nP\t0007\nP\t0005\nP\t0000\nP\t0004\nP\t0000\nP\t0004\n";
    let totals = Totals {
        lines: 9,
        interrupts: 1,
        free: 1,
    };
    let mut whole = [0; 8];
    assert_eq!(
        replay(MODE, log, &IMAGE, &MARKS, &[0], &mut whole),
        Ok(totals)
    );
    assert_eq!(whole, [3, 0, 0, 0, 3, 2, 0, 1]);

    let mut counts = [0; 8];
    let mut record = Record::open();
    for block in log.chunks(5) {
        let taken = record.block(MODE, block, &IMAGE, &MARKS, &[0], &mut counts);
        assert!(taken.is_ok());
    }
    assert_eq!(record.close(), Ok(totals));
    assert_eq!(counts, whole);
    assert_eq!(record.0[REPLAY_LINES], 9);
    assert_eq!(record.0[REPLAY_LAST], 4);

    let refused = |log: &[u8], counts: &mut [u64]| {
        let answer = replay(MODE, log, &IMAGE, &MARKS, &[], counts);
        answer.expect_err("a refusal")
    };
    let line = 2;
    let bad = refused(b"P\t0000\nbad\n", &mut counts);
    assert_eq!(bad, Refusal::MalformedLog { line });
    let bad = refused(b"P\t0000\nP\t0001\n", &mut counts);
    assert_eq!(bad, Refusal::NotTraced { line });
    let bad = refused(b"P\t0000\nP\t0007\n", &mut counts);
    assert_eq!(bad, Refusal::ForbiddenMove { line });
    counts[4] = u64::MAX;
    let bad = refused(b"P\t0000\nP\t0004\n", &mut counts);
    assert_eq!(bad, Refusal::CountFull { line });
}

/// The numbers are the documents', with and without values.
#[test]
fn numbers_of_refusals() {
    let mark = Mark::Traced;
    let some = [
        (Refusal::LongImage { length: 65_537 }, 1),
        (Refusal::NotWaiting { mark }, 4),
        (Refusal::NoRoom { needed: 5 }, 11),
        (Refusal::Nothing, 12),
        (Refusal::MalformedInput { line: 1 }, 13),
        (Refusal::SumFull, 22),
    ];
    for (refusal, number) in some {
        assert_eq!(refusal.number(), number);
        let words = refusal.to_string();
        assert!(words.starts_with(&format!("refusal {number}: ")), "{words}");
    }
    assert_eq!(
        decode(&[]).expect_err("a refusal").to_string(),
        "refusal 12: nothing to decode"
    );
}
