//! Frames of JR/T 0087 (request No. 12): worked frames, borders, both round trips on generated ones.

use std::collections::BTreeMap;

use reader::fix::{framed, read, write, write_run, Judgement, Pair, MOST_FRAME};
use reader::fix_cases::{bytes, traps, worked};
use reader::fix_frames::{expected_input, frame_input, parts_input, right, run_input, Form, FORMS};
use reader::generate::Random;

/// The bytes that both writers give for a type and fields, or their refusal; the output behind them stays.
fn written(kind: &[u8], fields: &[Pair]) -> Result<Vec<u8>, u8> {
    let mut out = [0xAA; MOST_FRAME + 10];
    let answer = write(kind, fields, &mut out);
    assert!(out[answer.unwrap_or(0)..].iter().all(|&b| b == 0xAA));
    answer.map(|n| out[..n].to_vec())
}

fn written_run(kind: &[u8], run: &[u8]) -> Result<Vec<u8>, u8> {
    let mut out = [0xAA; MOST_FRAME + 10];
    let answer = write_run(kind, run, &mut out);
    assert!(out[answer.unwrap_or(0)..].iter().all(|&b| b == 0xAA));
    answer.map(|n| out[..n].to_vec())
}

/// What was read, written again, gives the same bytes; gives the judgement, or the refusal.
fn read_again(input: &[u8], expected: u32) -> Result<Judgement, u8> {
    let answer = read(input, expected);
    let message = match answer.found {
        Err(row) => {
            assert_eq!(answer.expected, expected);
            return Err(row);
        }
        Ok(message) => message,
    };
    let raised = u32::from(message.judgement == Judgement::Next);
    assert_eq!(answer.expected, expected + raised);
    let pairs: Vec<Pair> = message.fields.iter().map(|field| (field.tag, field.text(input))).collect();
    assert_eq!(written(message.kind, &pairs).as_deref(), Ok(input));
    // The run of all fields lies in the bytes as it is, between 35 and 10.
    let from = input.iter().enumerate().filter(|(_, &b)| b == 1).nth(2).expect("35 is closed").0 + 1;
    assert_eq!(written_run(message.kind, &input[from..input.len() - 7]).as_deref(), Ok(input));
    Ok(message.judgement)
}

#[test]
fn worked_frames() {
    assert_eq!((worked().len(), traps().len()), (46, 121));
    for case in worked().into_iter().chain(traps()) {
        assert_eq!(read_again(&case.bytes, case.expected), case.answer, "{}", case.what);
        assert_eq!(read(&case.bytes, case.expected).expected, case.after, "{}", case.what);
    }
}

#[test]
fn types_and_fields() {
    let input =
        bytes("8=FIX.4.2|9=75|35=A|49=FUND|56=BROKER|34=5|52=20121226-01:00:00|98=0|108=30|95=5|96=a|b=c|10=011|");
    let message = read(&input, 7_000).found;
    assert_eq!(message, Err(30));
    let message = read(&input, 5).found.unwrap();
    assert_eq!((message.kind, message.number), (b"A".as_slice(), 5));
    let fields: Vec<Pair> = message.fields.iter().map(|field| (field.tag, field.text(&input))).collect();
    let right: [Pair; 8] = [
        (49, b"FUND"),
        (56, b"BROKER"),
        (34, b"5"),
        (52, b"20121226-01:00:00"),
        (98, b"0"),
        (108, b"30"),
        (95, b"5"),
        (96, b"a\x01b=c"),
    ];
    assert_eq!(fields, right);
    assert_eq!((message.fields[0].start, message.fields[0].len), (23, 4));
    // Any byte but the separator is part of a text.
    for b in (0..=255).filter(|&b| b != 1) {
        assert_eq!(
            read_again(&framed(&[b"35=D\x0134=5\x0158=", [b].as_slice(), b"\x01"].concat()), 5),
            Ok(Judgement::Next)
        );
    }
}

#[test]
fn sizes() {
    for (length, answer) in [(4096, Ok(Judgement::Next)), (4097, Err(28)), (5000, Err(28))] {
        let text = vec![b'x'; length - 24 - 14];
        let body = [b"35=D\x0134=5\x0158=".as_slice(), &text, b"\x01"].concat();
        let input = framed(&body);
        assert_eq!(input.len(), length);
        assert_eq!(read_again(&input, 5), answer);
        let row = answer.err().map_or(Ok(()), Err);
        assert_eq!(written(b"D", &[(34, b"5"), (58, &text)]).map(|out| assert_eq!(out, input)), row);
        assert_eq!(written_run(b"D", &body[5..]).map(|out| assert_eq!(out, input)), row);
    }
    // As many fields as there can be.
    let body = [b"35=D\x0134=5\x01".to_vec(), b"1=x\x01".repeat(1015), vec![]].concat();
    let input = framed(&body);
    assert!(input.len() <= MOST_FRAME && input.len() + 4 > MOST_FRAME);
    assert_eq!(read(&input, 5).found.unwrap().fields.len() + 1, 1017);
    // Body lengths where they get a digit more.
    for n in [9, 10, 11, 99, 100, 101, 999, 1000, 1001] {
        let body = [b"35=D\x011=".as_slice(), &vec![b'x'; n - 8], b"\x01"].concat();
        assert_eq!(read(&framed(&body), 0).found, Err(29));
    }
}

#[test]
fn refused_in_writing() {
    let order: [Pair; 1] = [(34, b"5")];
    assert_eq!(written(b"D", &order), Ok(bytes("8=FIX.4.2|9=10|35=D|34=5|10=187|")));
    assert_eq!(written(b"", &order), Err(28));
    assert_eq!(written(b"D\x01", &order), Err(28));
    assert_eq!(written_run(b"", b"34=5\x01"), Err(28));
    assert_eq!(written_run(b"D\x01", b"34=5\x01"), Err(28));
    assert_eq!(written_run(b"D\x0134=5", b"58=x\x01"), Err(28));
    assert_eq!(written_run(b"D", b""), Err(29));
    assert_eq!(written_run(b"D", b"34=5"), Err(28));
    assert_eq!(written_run(b"D", b"34=5\x0195=3\x0196=abc"), Err(28));
    assert_eq!(written_run(b"D", b"34=5\x0195=3\x0196=abc\x01").err(), None);
    for (more, row) in [
        ((58, b"".as_slice()), 28),
        ((58, b"a\x0158=b"), 28),
        ((58, b"a\x01"), 28),
        ((0, b"x"), 28),
        ((1_000_000_000, b"x"), 28),
        ((u32::MAX, b"x"), 28),
        ((96, b"x"), 28),
        ((34, b"x"), 28),
        ((34, b"5"), 29),
        ((8, b"FIX.4.2"), 29),
        ((9, b"5"), 29),
        ((35, b"D"), 29),
        ((10, b"123"), 29),
    ] {
        assert_eq!(written(b"D", &[order[0], more]), Err(row), "{more:?}");
    }
    assert_eq!(written(b"D", &[(34, b"5"), (43, b"Y"), (43, b"Y")]), Err(29));
    for (length, data, right) in [
        (b"3".as_slice(), b"abc".as_slice(), true),
        (b"3", b"\x01\x01\x01", true),
        (b"003", b"abc", true),
        (b"2", b"abc", false),
        (b"4", b"abc", false),
        (b"0000000003", b"abc", false),
        (b"0", b"", false),
        (b"x", b"abc", false),
    ] {
        let fields: [Pair; 3] = [(34, b"5"), (95, length), (96, data)];
        assert_eq!(written(b"D", &fields).err(), (!right).then_some(28), "{length:?}");
        assert_eq!(written(b"D", &[fields[1], fields[0], fields[2]]), Err(28));
    }
    // 28 before 18 before 29.
    let mut out = [0xAA; 32];
    assert_eq!(write(b"D", &order, &mut out[..31]), Err(18));
    assert_eq!(write_run(b"D", b"34=5\x01", &mut out[..31]), Err(18));
    assert_eq!(write(b"D", &[], &mut out[..5]), Err(18));
    assert_eq!(write(b"D", &[(34, b"x")], &mut out[..5]), Err(28));
    assert_eq!(write(b"D", &[(58, &[b'x'; 5000])], &mut out[..5]), Err(28));
    assert_eq!(write(b"D", &[], &mut out), Err(29));
    assert_eq!(out, [0xAA; 32]);
    assert_eq!(write(b"D", &order, &mut out), Ok(32));
}

#[test]
fn generated_frames() {
    let mut r = Random::new(12);
    let mut answers: BTreeMap<(Form, Result<Judgement, u8>), u32> = BTreeMap::new();
    for i in 0..90_000 {
        let form = FORMS[i % FORMS.len()];
        let input = frame_input(&mut r, form);
        let expected = expected_input(&mut r, &input);
        *answers.entry((form, read_again(&input, expected))).or_default() += 1;
    }
    // A right frame is turned away by its number alone.
    assert_eq!(answers.get(&(Form::Whole, Err(28))), None);
    assert_eq!(answers.get(&(Form::Whole, Err(29))), None);
    use Judgement::{Again, Gap, Next, Reset};
    for form in [Form::Tags, Form::Numbers, Form::Data, Form::Several, Form::Bytes] {
        for answer in [Ok(Next), Ok(Again), Ok(Gap), Ok(Reset), Err(28), Err(29), Err(30)] {
            assert!(answers.get(&(form, answer)).is_some_and(|&n| n >= 5), "{form:?} {answer:?}");
        }
    }
}

#[test]
fn generated_messages() {
    let mut r = Random::new(21);
    let mut answers: BTreeMap<(Form, u8), u32> = BTreeMap::new();
    for i in 0..90_000 {
        let form = FORMS[i % FORMS.len()];
        let parts = parts_input(&mut r, form);
        let pairs = parts.pairs();
        let answer = written(&parts.kind, &pairs);
        *answers.entry((form, answer.as_ref().err().copied().unwrap_or(0))).or_default() += 1;
        // Written exactly if reading passes the bytes and gives type and fields as they were meant; no number is below 0.
        let input = answer.clone().unwrap_or_else(|_| framed(&parts.body()));
        let found = read(&input, 0).found;
        let meant = found.as_ref().is_ok_and(|message| {
            let back: Vec<Pair> = message.fields.iter().map(|field| (field.tag, field.text(&input))).collect();
            message.kind == parts.kind && back == pairs
        });
        assert_eq!(answer.is_ok(), meant, "{parts:?}");
        if answer == Err(29) {
            assert_eq!(found, Err(29), "{parts:?}");
        }
        // An output that has as many bytes as needed, or one less.
        if answer != Err(28) {
            let mut out = vec![0xAA; input.len()];
            assert_eq!(write(&parts.kind, &pairs, &mut out[1..]), Err(18));
            assert_eq!(write(&parts.kind, &pairs, &mut out).err(), answer.as_ref().err().copied());
        }
        // Both forms of the writer say the same of fields that no run tells apart.
        if answer != Err(28) {
            assert_eq!(written_run(&parts.kind, &parts.run()), answer);
        }
        let (kind, run) = run_input(&mut r, form);
        if let Ok(input) = written_run(&kind, &run) {
            assert_eq!(input, framed(&[b"35=", kind.as_slice(), b"\x01", &run].concat()));
            assert!(matches!(read_again(&input, r.number(u32::MAX)), Ok(_) | Err(30)));
        }
    }
    for form in [Form::Tags, Form::Numbers, Form::Several, Form::Framing, Form::Random] {
        for row in [0, 28, 29] {
            assert!(answers.get(&(form, row)).is_some_and(|&n| n >= 5), "{form:?} {row}");
        }
    }
}

/// Whatever comes, the numbers taken as next follow each other as long as the caller sets none.
#[test]
fn numbers_follow() {
    let mut r = Random::new(34);
    for _ in 0..200 {
        let start = r.pick(&[0, 1, 5, 999_999_990]);
        let (mut expected, mut taken) = (start, vec![]);
        for _ in 0..60 {
            let mut parts = right(&mut r);
            let sent = (expected + r.below(5) as u32).saturating_sub(2);
            parts.fields.iter_mut().filter(|field| field.0 == 34).for_each(|field| field.1 = sent.to_string().into());
            let input = framed(&parts.body());
            let answer = read(&input, expected);
            if let Ok(message) = answer.found {
                if message.judgement == Judgement::Next {
                    taken.push(message.number);
                }
            }
            expected = answer.expected;
        }
        assert_eq!(taken, (start..expected).collect::<Vec<u32>>());
        assert!(start > 999_999_000 || !taken.is_empty());
    }
}
