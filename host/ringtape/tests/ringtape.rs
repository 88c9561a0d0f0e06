//! The program ringtape: text to input and back, loads, and what it says of what it doesn't understand.

use std::io::Write;
use std::process::{Command, Output, Stdio};

/// Runs ringtape with its words and its standard input.
fn ringtape(words: &[&str], input: &[u8]) -> Output {
    let mut command = Command::new(env!("CARGO_BIN_EXE_ringtape"));
    let pipes = command.args(words).stdin(Stdio::piped()).stdout(Stdio::piped()).stderr(Stdio::piped());
    let mut running = pipes.spawn().expect("ringtape runs");
    let mut stdin = running.stdin.take().expect("it has a standard input");
    // It may end without a look at its input.
    let _ = stdin.write_all(input);
    drop(stdin);
    running.wait_with_output().expect("ringtape ends")
}

/// What it writes, where all is well.
fn done(word: &str, input: &[u8]) -> Vec<u8> {
    let Output { status, stdout, stderr } = ringtape(&[word], input);
    assert!(status.success() && stderr.is_empty(), "{word}: {}", String::from_utf8_lossy(&stderr));
    stdout
}

fn made(text: &str) -> Vec<u8> {
    done("make", text.as_bytes())
}

fn shown(input: &[u8]) -> String {
    String::from_utf8(done("show", input)).expect("it is text")
}

/// What it says of a text that it doesn't understand: one line, exit status 1, and no output.
fn complaint(text: &[u8]) -> String {
    one_line(ringtape(&["make"], text), 1)
}

/// The one line that it says beside this exit status and no output.
fn one_line(Output { status, stdout, stderr }: Output, exit: i32) -> String {
    let line = String::from_utf8(stderr).expect("it is text");
    assert_eq!((status.code(), stdout.len()), (Some(exit), 0), "{line}");
    let what = line.strip_prefix("ringtape: ").and_then(|line| line.strip_suffix('\n'));
    what.filter(|what| !what.contains('\n')).expect("it is one line").to_string()
}

/// The arguments of a load.
fn load_words(words: &str) -> Vec<&str> {
    std::iter::once("load").chain(words.split(' ')).collect()
}

/// What it writes for a load.
fn loaded(words: &str) -> Vec<u8> {
    let Output { status, stdout, stderr } = ringtape(&load_words(words), b"");
    assert!(status.success() && stderr.is_empty(), "{words}: {}", String::from_utf8_lossy(&stderr));
    stdout
}

const ENTRY_1: &str = "2 0\n\
                       1.0(7) 1.3 1.7 0.6 0.7 1.4 1.7 1.2 1.3 1.7\n\
                       0.1 0.3 0.7 1.5 1.7 0.4 0.7 0.2 0.3 0.7\n";

#[test]
fn entry_1_is_made_and_shown() {
    let input = include_bytes!("../../../samples/entry-01.in");
    assert_eq!(made(ENTRY_1), input);
    assert_eq!(shown(input), ENTRY_1);
    assert_eq!(done("expect", input), include_bytes!("../../../samples/entry-01.out"));
}

#[test]
fn blanks_comments_and_zeros_make_no_difference() {
    let text = "# entry 1\n\n \t02 00 # N and home\r\n1.0(007)1.3".replace(")1", ")\t1");
    let rest = " 1.7 0.6\n0.7\n\n# half of it 9.9\n1.4 1.7 1.2 1.3 1.7#0.7\n \
                0.1 0.3 0.7 1.5 1.7 0.4 0.7 0.2 0.3 0.7";
    assert_eq!(shown(&made(&format!("{text}{rest}"))), ENTRY_1);
}

#[test]
fn the_greatest_of_all_are_made() {
    let text = "64 63\n63.0(4294967295) 0.0(0) 63.7\n";
    let input = made(text);
    assert_eq!((&input[..4], input.len()), (&[64, 63, 0, 0][..], 2 + 512));
    assert_eq!(input[2 + 8..][..8], [63, 0, 0, 0, 255, 255, 255, 255]);
    assert_eq!(shown(&input), text);
}

/// N and home alone: no events, whether of a text, of a load or of an input that lacks its home too.
#[test]
fn no_events_are_made_and_shown() {
    for text in ["2 1", "2 1\n", "\n2 1 # 1.3\n# 0.7\n\n"] {
        assert_eq!(made(text), [2, 1]);
    }
    assert_eq!(shown(&[2, 1]), "2 1\n");
    assert_eq!(shown(&[64]), "64 0 # no home: it reads as 0\n");
    assert_eq!(made(&shown(&[64])), [64, 0]);
    assert_eq!(loaded("4 3 1 0"), [4, 3]);
    assert_eq!(loaded("4 3 1 0 --tape"), []);
    let nothing = "puts 0 gets 0 fills 0 takes 0 sent 0 got 0 idle 0\nstopped\n";
    assert_eq!(done("expect", &made("64 63")), nothing.as_bytes());
}

#[test]
fn as_many_events_as_ringrun_takes_and_no_more() {
    let events = |count: usize| format!("2 0\n{}", "1.7\n".repeat(count));
    assert_eq!(made(&events(63)).len(), 2 + 512);
    assert_eq!(made(&events(64)).len(), 2 + 2 * 512);
    assert_eq!(made(&events(4032)).len(), 2 + 64 * 512);
    assert_eq!(complaint(events(4033).as_bytes()), "line 4034: 1.7 is one event more than 4032");
}

#[test]
fn what_is_not_understood_is_named_with_its_line() {
    let not = |word: &str| format!("line 3: {word} is no event like 1.3 or 1.0(7)");
    for word in ["x", "1", "1.", ".3", "1.3.3", "1.3,", "1.-3", "+1.3", "1.0(7", "1.0(7)1.3", "1.0()", "1.0(-1)", "(7)"]
    {
        assert_eq!(complaint(format!("2 0\n1.3\n0.7 {word} 0.7").as_bytes()), not(word));
    }
    let wrong: [(&[u8], &str); 20] = [
        (b"", "line 1: there is no line `N HOME`"),
        (b"# 2 0\n\n", "line 2: there is no line `N HOME`"),
        (b"2\n0\n1.3", "line 1: the first line is `N HOME`, two numbers: 2"),
        (b"\n2 0 1.3", "line 2: the first line is `N HOME`, two numbers: 2 0 1.3"),
        (b"two 0\n1.3", "line 1: N is not a number: two"),
        (b"2 -1\n1.3", "line 1: HOME is not a number: -1"),
        (b"1 0\n0.3", "line 1: N is not 2 to 64: 1"),
        (b"65 0\n0.3", "line 1: N is not 2 to 64: 65"),
        (b"258 0\n0.3", "line 1: N is not 2 to 64: 258"),
        (b"99999999999999999999 0\n0.3", "line 1: N is not 2 to 64: 99999999999999999999"),
        (b"4 4\n0.3", "line 1: HOME is not below N = 4: 4"),
        (b"4 256\n0.3", "line 1: HOME is not below N = 4: 256"),
        (b"4 3\n0.3\n4.3", "line 3: the process of 4.3 is not below N = 4"),
        (b"4 3\n0.3\n257.3", "line 3: the process of 257.3 is above 255"),
        (b"4 3\n0.3 1.8", "line 2: the code of 1.8 is above 7"),
        (b"4 3\n0.3 1.256", "line 2: the code of 1.256 is above 255"),
        (b"4 3\n0.3 1.0", "line 2: 1.0 has no message: code 0 is written like 1.0(7)"),
        (b"4 3\n0.3(0)", "line 2: 0.3(0) has a message, which only code 0 has"),
        (b"4 3\n0.0(4294967296)", "line 2: the message of 0.0(4294967296) is above 4294967295"),
        (b"4 3\n0.3\n\xFF", "line 3: this is no text: a byte that isn't UTF-8"),
    ];
    for (text, what) in wrong {
        assert_eq!(complaint(text), what, "{}", String::from_utf8_lossy(text));
    }
}

#[test]
fn other_words_get_the_usage() {
    for words in [&[][..], &["mak"], &["show", "file"]] {
        let Output { status, stdout, stderr } = ringtape(words, b"");
        assert_eq!((status.code(), stdout.len()), (Some(2), 0));
        assert!(stderr.starts_with(b"usage: ringtape make "));
    }
}

#[test]
fn a_load_of_other_words_is_told_what_it_takes() {
    for words in
        ["", "4 0 1", "4 0 1 63 63", "4 0 --tape 1 63", "--tape 4 1 63", "--tape 4 0 1 63 --tape", "4 0 1 63 --bare"]
    {
        let line = one_line(ringtape(&load_words(words), b""), 2);
        assert_eq!(line, format!("load takes N HOME SEED COUNT, and --tape before or behind them: {words}"));
    }
}

/// A load comes as ringrun reads it, and with `--tape` as a tape alone, whatever home it has.
#[test]
fn loads_are_drawn_from_their_seeds() {
    for (n, home, seed, count) in [(2, 1, 1, 1), (4, 0, 1, 63), (37, 36, 2_147_483_646, 64), (64, 63, 16_807, 4_032)] {
        let words = format!("{n} {home} {seed} {count}");
        let tape = guide::load(n, seed, count);
        assert!(loaded(&words) == [&[n as u8, home], &tape[..]].concat(), "{words}");
        assert!(loaded(&format!("{words} --tape")) == tape, "{words}");
        assert!(loaded(&format!("--tape {words}")) == tape, "{words}");
    }
    assert!(loaded("02 00 0001 063") == loaded("2 0 1 63"), "zeros in front make no difference");
    assert!(loaded("64 0 1 4128768 --tape") == guide::load(64, 1, 4_128_768), "the longest");
}

/// A load read by `show`, and what ringrun must print for it.
#[test]
fn a_load_is_shown() {
    let input = loaded("2 0 1 63");
    let text = shown(&input);
    let words: Vec<&str> = text.split_whitespace().collect();
    assert_eq!(words[..6], ["2", "0", "1.1", "0.2", "0.6", "1.0(1115438165)"]);
    assert_eq!((words.len(), text.lines().count()), (2 + 63, 1 + 7));
    assert_eq!(made(&text), input);
    let expected = String::from_utf8(done("expect", &input)).expect("it is text");
    assert!(expected.ends_with("\nstopped\n") || expected.ends_with("\nmoving\n"), "{expected}");
    let first_ten = "3.1 2.2 0.6 1.0(1115438165) 0.2 3.7 0.4 1.5 0.5 2.0(1505795335)\n";
    assert!(shown(&loaded("4 3 1 63")).starts_with(&format!("4 3\n{first_ten}")));
    let readme = include_str!("../../../README.md");
    let example = "$ target/release/ringtape load 4 0 1 10 | target/release/ringtape show";
    assert!(readme.contains(&format!("\n{example}\n{}```", shown(&loaded("4 0 1 10")))));
}

/// A refusal has its number and exit status 1; of several, N comes first, then HOME, SEED and COUNT.
#[test]
fn a_load_is_refused_with_its_number() {
    let refused = [
        ("1 0 1 63", "1 at 0: N is not 2 to 64: 1"),
        ("65 0 1 63", "1 at 0: N is not 2 to 64: 65"),
        ("258 0 1 63", "1 at 0: N is not 2 to 64: 258"),
        ("4294967300 9 0 4128769", "1 at 0: N is not 2 to 64: 4294967300"),
        ("4 4 1 63", "2 at 0: HOME is not below N = 4: 4"),
        ("4 256 1 63", "2 at 0: HOME is not below N = 4: 256"),
        ("4 4294967296 0 4128769", "2 at 0: HOME is not below N = 4: 4294967296"),
        ("4 0 0 63", "11 at 0: SEED is not 1 to 2147483646: 0"),
        ("4 0 2147483647 4128769", "11 at 0: SEED is not 1 to 2147483646: 2147483647"),
        ("4 0 4294967297 18446744073709551615", "11 at 0: SEED is not 1 to 2147483646: 4294967297"),
        ("4 0 0 4033", "11 at 0: SEED is not 1 to 2147483646: 0"),
    ];
    for (words, what) in refused {
        for words in [words.to_string(), format!("{words} --tape"), format!("--tape {words}")] {
            assert_eq!(one_line(ringtape(&load_words(&words), b""), 1), format!("refused {what}"), "{words}");
        }
    }
}

/// Too many: for ringrun from 4,033 on, and for a tape from 4,128,769.
#[test]
fn a_load_of_too_many_events_is_refused() {
    assert_eq!(loaded("4 0 1 4032").len(), 2 + 64 * 512);
    for count in ["4033", "4128768", "4128769", "4294967297", "18446744073709551615"] {
        let line = one_line(ringtape(&["load", "4", "0", "1", count], b""), 1);
        assert_eq!(line, format!("refused 6 at 0: COUNT is not 0 to 4032, or with --tape to 4128768: {count}"));
    }
    assert_eq!(loaded("4 0 1 4033 --tape").len(), 65 * 512);
    for count in ["4128769", "4294967297", "18446744073709551615"] {
        let line = one_line(ringtape(&["load", "--tape", "4", "0", "1", count], b""), 1);
        assert_eq!(line, format!("refused 6 at 0: COUNT is not 0 to 4128768: {count}"));
    }
}

#[test]
fn an_argument_that_is_no_number_is_named() {
    let wrong = [
        ("four 0 1 63", "N is not a decimal number: four"),
        ("4 -1 1 63", "HOME is not a decimal number: -1"),
        ("4 0 +1 63", "SEED is not a decimal number: +1"),
        ("4 0 1 6_3", "COUNT is not a decimal number: 6_3"),
        ("4 0 0x1 63", "SEED is not a decimal number: 0x1"),
        ("4 0 1 ", "COUNT is not a decimal number: "),
        ("4 0 1 ٣", "COUNT is not a decimal number: ٣"),
        ("4 0 18446744073709551616 63", "SEED does not fit 64 bits: 18446744073709551616"),
        ("99999999999999999999 0 1 x", "N does not fit 64 bits: 99999999999999999999"),
        ("1 9 0 63.0", "COUNT is not a decimal number: 63.0"),
    ];
    for (words, what) in wrong {
        assert_eq!(one_line(ringtape(&load_words(words), b""), 2), what, "{words}");
    }
}

/// Every sample: what is accepted comes back as the same bytes, what is refused as comments.
#[test]
fn samples_are_shown_and_made_again() {
    for samples::Sample { name, input } in samples::all() {
        let report = String::from_utf8(plain::report(&input)).unwrap();
        assert_eq!(done("expect", &input), report.as_bytes(), "{name}");
        let text = shown(&input);
        if report.starts_with("refused") {
            assert!(text.starts_with(&format!("# {}: ", report.trim_end())), "{name}: {text}");
            assert!(text.lines().all(|line| line.starts_with("# ")), "{name}: {text}");
            assert!(complaint(text.as_bytes()).ends_with("there is no line `N HOME`"), "{name}");
        } else {
            // N alone comes back with its home
            assert_eq!(made(&text), if input.len() == 1 { vec![input[0], 0] } else { input }, "{name}");
            assert!(text.lines().skip(1).all(|line| line.split(' ').count() <= 10), "{name}");
        }
    }
}

/// What can still be read of a refused input.
#[test]
fn a_refused_input_is_shown_as_far_as_it_can_be_read() {
    assert_eq!(shown(&[]), "# refused 1 at 0: N is not 2 to 64\n# no N: it reads as 0\n# no home: it reads as 0\n");
    let mut input = made("3 2\n1.0(7) 2.3 0.1\n");
    input[2 + 8 + 8 + 2] = 5;
    input[2 + 8 + 16 + 4] = 9;
    input[2 + 8 + 62 * 8 + 7] = 255;
    let damaged = "# refused 7 at 0: block 0 came damaged: its check isn't that of its bytes\n# N 3\n# home 2\n\
                   # block 0: number 0, count 3, check a = 1037, b = 59580 where a = 796, b = 62738 is right\n\
                   # 1.0(7) [02 03 05 00 00 00 00 00] 0.1(9)\n\
                   # unused slot 62: 00 00 00 00 00 00 00 ff\n";
    assert_eq!(shown(&input), damaged);
    guide::seal(&mut input[2..]);
    input.extend([1, 0, 63, 0, 1, 2, 3]);
    let ragged = "# refused 6 at 0: the length is wrong: a tape has up to 65536 whole blocks of 512 bytes, a list or \
                  load up to 4128768 events of 8 bytes, and ringrun takes up to 64 blocks\n# N 3\n# home 2\n\
                  # block 0: number 0, count 3, check right\n\
                  # 1.0(7) [02 03 05 00 00 00 00 00] 0.1(9)\n\
                  # unused slot 62: 00 00 00 00 00 00 00 ff\n\
                  # block 1: 7 of 512 bytes: 01 00 3f 00 01 02 03\n";
    assert_eq!(shown(&input), ragged);
    input.extend([4, 1, 3, 0, 0, 0, 0, 0, 0, 9]);
    let further = "# block 1: number 1, count 63, 17 of 512 bytes\n# 1.3\n";
    assert!(shown(&input).ends_with(further), "{}", shown(&input));
}
