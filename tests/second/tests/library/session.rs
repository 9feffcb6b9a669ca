//! Session lines of any length and in any pieces, and the generator's sessions: the same for the same arguments.

use std::io::BufReader;

use second::generate;
use second::session::{answers, run};

#[test]
fn a_line_of_any_length_is_one_line() {
    for length in [1, 41, 43, 44, 100_000, 1_000_000] {
        let mut input = b"02000100\n".to_vec();
        input.resize(input.len() + length, b'0');
        input.extend(b"\n0600");
        let zeros = "0".repeat(82);
        assert_eq!(String::from_utf8(answers(&input)).expect("digits"), format!("00\n0c\n{zeros}\n"));
    }
}

#[test]
fn the_input_may_come_in_any_pieces() {
    let input = generate::session(7, 400);
    for capacity in [1, 2, 3, 43, 64] {
        let mut output = Vec::new();
        run(BufReader::with_capacity(capacity, &input[..]), &mut output).expect("memory");
        assert!(output == answers(&input));
    }
}

#[test]
fn each_line_has_one_answer() {
    for seed in 1..50 {
        let input = generate::session(seed, 200);
        let lines = input.split_inclusive(|&byte| byte == b'\n').count();
        assert!((199..=200).contains(&lines), "a blank last line may lose its newline and so itself");
        let answers = answers(&input);
        assert_eq!(answers.iter().filter(|&&byte| byte == b'\n').count(), lines);
        assert!(input == generate::session(seed, 200));
    }
    assert!(generate::session(1, 0).is_empty());
}
