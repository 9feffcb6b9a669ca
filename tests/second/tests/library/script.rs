//! Call scripts: their form, the lengths that are lent, the checksum, and the generator's scripts.

use second::calls::App;
use second::gauge::Gauge;
use second::record::Record;
use second::script::{Answer, Buffer, Buffers, Command, obey, run};
use second::scripts;
use second::units::*;

fn answers(script: &str) -> Result<String, String> {
    let mut output = Vec::new();
    run(script.as_bytes(), &mut output).map_err(|error| error.to_string())?;
    Ok(String::from_utf8(output).expect("words and numbers"))
}

#[test]
fn a_command_reads_as_it_is_written() {
    for line in [
        "B 4607 -9223372036854775808",
        "C 0 1",
        "O 1023 9223372036854775807",
        "G 7 50",
        "F 4 -9223372036854775808",
        "L 0 0 1024 1 8 0 5",
        "Z",
        "check",
        "cover -1",
        "open 0 3 0",
        "open 15 1 -9223372036854775808",
        "move 15 255 -1",
        "order 0 1 2 3 4 5",
        "roll 16",
        "report 9223372036854775807",
        "app -9223372036854775808",
        "unapp",
    ] {
        assert_eq!(Command::read(line).expect(line).to_string(), line);
    }
}

#[test]
fn a_line_of_another_form_ends_the_script() {
    let commands = [
        "",
        " check",
        "check ",
        "check 1",
        "cover",
        "open 0",
        "open 0 1",
        "open 0 1 0 0",
        "move 0 255  1",
        "roll x",
        "L 1 2 3",
        "z",
        "R 0 1",
        "app",
        "unapp 0",
    ];
    let numbers = ["roll 9223372036854775808", "B -1 0", "L 4608 0 1024 1024 -8 0 5", "F 0 9223372036854775808"];
    for line in commands.into_iter().chain(numbers) {
        let error = answers(&format!("check\n{line}\n")).expect_err(line);
        assert!(error.starts_with("line 2: "), "{line}: {error}");
    }
    assert_eq!(answers("G 8 1\n"), Err("line 1: G 8 1: beyond the lent length".to_string()));
    assert_eq!(answers("check"), Ok("0 0\n".to_string()), "the last line may lack its newline");
}

#[test]
fn lengths_cut_and_fill_up() {
    let mut buffers = Buffers::default();
    let mut say = |line: &str| {
        obey(&mut buffers, &Command::read(line).expect(line)).expect("a number within the lent length");
        Buffer::ALL.map(|buffer| buffers.numbers(buffer).clone())
    };
    say("G 7 5");
    say("G 0 4");
    say("F 1 3");
    say("F 4 -6");
    let [_, _, _, groups, feed] = say("L 0 9 1025 1 7 9 3");
    assert_eq!((groups, feed), (vec![4, 0, 0, 0, 0, 0, 0], vec![0, 3, 0]));
    let [book, clearing, own, groups, feed] = say("L 4608 0 1024 1024 8 0 6");
    assert_eq!((book.len(), clearing.len(), own.len()), (BOOK, TABLE, TABLE));
    assert_eq!(groups, [4, 0, 0, 0, 0, 0, 0, 0]);
    assert_eq!(feed, [0, 3, 0, 0, 0, 0]);
    say("L 1 0 1 1 1 0 1");
    assert_eq!(say("Z"), Buffer::ALL.map(|buffer| vec![0; buffer.right_length()]));
}

/// Against the sum written out: each buffer weighs otherwise, and each number by its place.
#[test]
fn the_checksum_sees_every_number() {
    for (buffer, factor) in Buffer::ALL.into_iter().zip([1u64, 5, 7, 11, 17]) {
        for number in 0..buffer.right_length() {
            let mut buffers = Buffers::default();
            buffers.numbers_mut(buffer)[number] = -3;
            assert_eq!(buffers.sum(), 0u64.wrapping_sub(3 * factor * (number as u64 + 1)));
        }
    }
}

#[test]
fn a_generated_script_is_the_same_each_time_and_answers_every_call() {
    for seed in [1, 2, 66, 1_000_000] {
        let script = scripts::script(seed).text;
        assert!(script == scripts::script(seed).text);
        let text = String::from_utf8(script).expect("words and numbers");
        let calls = text.lines().filter(|line| Command::read(line).expect(line).call().is_some()).count();
        assert_eq!(answers(&text).expect("a script that keeps its form").lines().count(), calls);
        assert!(calls > 700, "{calls} calls");
    }
}

#[test]
fn answers_are_shown_with_what_they_add() {
    assert_eq!(Answer::Check { code: 2, place: 2055 }.to_string(), "2 2055");
    assert_eq!(Answer::Check { code: 13, place: 1026 }.to_string(), "13 1026");
    assert_eq!(Answer::Cover(true).to_string(), "1");
    let refused = Answer::App { code: 4, app: App::default(), sum: 9 };
    assert_eq!(refused.to_string(), "4 0 0 0 0 0 0 0 9");
    let record = Record { valuation: 1.0, limit: -0.0, ..Record::default() };
    let over = Answer::App { code: 0, app: App { record, gauge: Gauge::Over(2.0) }, sum: 9 };
    let bits = "0 4607182418800017408 0 0 0 -9223372036854775808";
    assert_eq!(over.to_string(), format!("{bits} 1 4611686018427387904 9"));
    assert_eq!(Answer::Unapp { code: 0, record }.to_string(), bits);
    assert_eq!(Answer::Changed { code: 10, sum: u64::MAX }.to_string(), "10 18446744073709551615");
}
