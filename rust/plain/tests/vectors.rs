//! The worked examples that `crates/vectors` runs too: the stored answers are
//! those of the program here, they are the examples of the source documents and no
//! other but those of documents 01 and 02, and each answer says what the source
//! documents' tables have. To store the answers:
//!
//!     cargo run -p plain --bin vectors < ../crates/vectors/stdin > ../crates/vectors/stdout

mod examples;
mod numbers;
mod treadmill;

use std::collections::{HashMap, HashSet};
use std::fs;
use std::io::Write;
use std::path::PathBuf;
use std::process::{Command, Stdio};

fn stored(name: &str) -> PathBuf {
    PathBuf::from(env!("CARGO_MANIFEST_DIR"))
        .join("../../crates/vectors")
        .join(name)
}

fn text(name: &str) -> String {
    fs::read_to_string(stored(name)).unwrap()
}

/// The first word of each line that is no comment, and the rest.
fn by_name(text: &str) -> HashMap<&str, &str> {
    let lines = text.lines();
    let examples = lines.filter(|line| !line.is_empty() && !line.starts_with('#'));
    examples
        .map(|line| line.split_once(' ').unwrap_or((line, "")))
        .collect()
}

/// The value of a key in an answer.
fn value<'a>(answer: &'a str, key: &str) -> &'a str {
    let mut fields = answer.split(' ');
    fields.find_map(|field| field.strip_prefix(key)).unwrap()
}

/// What the answer to a frame begins with, by the verdict of the examples.
fn answer_to(verdict: &str) -> String {
    let words: Vec<&str> = verdict.split(' ').collect();
    match words[..] {
        ["std", len] => format!("kind=std len={len} "),
        ["ext", "to", to, "from", from, len] => {
            format!("kind=ext to={to} from={from} len={len} ")
        }
        ["refused", code] => format!("kind=refused code={code}"),
        _ => panic!("verdict {verdict}"),
    }
}

#[test]
fn stored_answers_are_what_the_program_prints() {
    let output = Command::new(env!("CARGO_BIN_EXE_vectors"))
        .stdin(fs::File::open(stored("stdin")).unwrap())
        .stderr(Stdio::inherit())
        .output()
        .unwrap();
    assert!(output.status.success());
    let (printed, stored) = (String::from_utf8(output.stdout).unwrap(), text("stdout"));
    for (printed, stored) in printed.lines().zip(stored.lines()) {
        assert_eq!(printed, stored);
    }
    assert_eq!(printed.len(), stored.len());
}

/// What the program prints of a few examples.
fn printed(examples: &str) -> String {
    let mut child = Command::new(env!("CARGO_BIN_EXE_vectors"))
        .stdin(Stdio::piped())
        .stdout(Stdio::piped())
        .spawn()
        .unwrap();
    let mut input = child.stdin.take().unwrap();
    input.write_all(examples.as_bytes()).unwrap();
    drop(input);
    let output = child.wait_with_output().unwrap();
    assert!(output.status.success());
    String::from_utf8(output.stdout).unwrap()
}

#[test]
fn lengths_are_told() {
    let cases = [
        ("standard-length", "length=3"),
        ("standard-length F1", "length=6"),
        ("standard-length 70 83", "length=6"),
        ("extended-length 05 00", "length=5"),
        ("extended-length F1 F3 80", "length=8"),
    ];
    for (call, answer) in cases {
        assert_eq!(printed(&format!("it {call}")), format!("it {answer}\n"));
    }
    let over = format!("it extended-length 05 00{}", " 00".repeat(116));
    assert_eq!(printed(&over), "it length=refused:2\n");
}

/// The length that belongs to what is written, or the same refusal.
fn length_of(written: &str) -> String {
    match written.strip_prefix("refused:") {
        Some(_) => written.to_string(),
        None => (written.len() / 2).to_string(),
    }
}

#[test]
fn lengths_are_those_of_what_is_written() {
    let (examples, answers) = (text("stdin"), text("stdout"));
    let answers = by_name(&answers);
    let mut count = 0;
    for (name, example) in by_name(&examples) {
        let (operation, arguments) = example.split_once(' ').unwrap_or((example, ""));
        let length_operation = match operation {
            "standard" => "standard-length",
            "live-standard" => "live-length",
            "extended" => "extended-length",
            _ => continue,
        };
        let length = printed(&format!("{name} {length_operation} {arguments}"));
        let expected = length_of(value(answers[name], "written="));
        assert_eq!(length, format!("{name} length={expected}\n"));
        count += 1;
    }
    assert!(count >= 6, "{count} frames are written");
}

/// What a live example asks for in a trace.
fn in_a_trace(example: &str) -> Option<String> {
    let example = example.strip_prefix("live-")?;
    Some(match example.strip_prefix("length") {
        Some(contents) => format!("standard-length{contents}"),
        None => example.to_string(),
    })
}

#[test]
fn live_examples_with_the_name_of_another_have_its_bytes() {
    let examples = text("stdin");
    let examples = by_name(&examples);
    let mut count = 0;
    for (name, example) in &examples {
        let trace = name.strip_prefix("live-");
        let Some(trace) = trace.and_then(|name| examples.get(name)) else {
            continue;
        };
        assert_eq!(in_a_trace(example).as_deref(), Some(*trace), "{name}");
        count += 1;
    }
    assert!(count >= 40, "{count} examples are in a trace too");
}

#[test]
fn live_frames_are_those_of_a_trace_but_for_standard_ones() {
    let (examples, answers) = (text("stdin"), text("stdout"));
    let answers = by_name(&answers);
    let (mut unnamed, mut others) = (0, 0);
    for (name, example) in by_name(&examples) {
        let live = example.strip_prefix("live-");
        let Some(frame) = live.filter(|example| example.starts_with("frame")) else {
            continue;
        };
        let trace = printed(&format!("{name} {frame}"));
        if trace.contains(" kind=std ") {
            assert_eq!(answers[name], "kind=refused code=17", "{name}");
            unnamed += 1;
        } else {
            assert_eq!(format!("{name} {}\n", answers[name]), trace);
            others += 1;
        }
    }
    assert!(unnamed >= 10 && others >= 20, "{unnamed} and {others}");
}

/// The most bytes that a reader takes before a finish.
const LIMIT: usize = 4_294_967_295;

/// The words of a `line` example: how many bytes its readers have taken before the
/// first group, and the bytes of each group.
fn groups(example: &str) -> Option<(usize, Vec<Vec<u8>>)> {
    let (operation, arguments) = example.split_once(' ')?;
    let (count, bytes) = match operation {
        "line" | "live-line" => ("0", arguments),
        "line-at" | "live-line-at" => arguments.split_once(' ')?,
        _ => return None,
    };
    let byte = |word: &str| u8::from_str_radix(word, 16).unwrap();
    let group = |group: &str| group.split_whitespace().map(byte).collect();
    let groups = bytes.split(" / ").map(group).collect();
    Some((count.parse().unwrap(), groups))
}

/// Of each answer in a part of a line's answers: the index of its byte, the position,
/// and whether it is 16.
fn told(part: &str) -> Vec<(usize, usize, bool)> {
    let answers = part.split(" by=").skip(1);
    let told = answers.map(|answer| {
        let (by, answer) = answer.split_once(' ').unwrap();
        let position = value(answer, "at=").parse().unwrap();
        let full = answer.contains("code=16");
        (by.parse().unwrap(), position, full)
    });
    told.collect()
}

/// An answer has the position of the last start flag that was taken before its byte,
/// and 16 is given at 0, to a byte past the limit.
fn check_positions(name: &str, count: usize, group: &[u8], part: &str) {
    let taken = group.len().min(LIMIT - count);
    for (by, position, full) in told(part) {
        if full {
            assert!(by >= taken && position == 0, "{name}: {by} {position}");
            continue;
        }
        let before = &group[..by.min(taken)];
        let flag = before.iter().rposition(|byte| [0xF0, 0xF1].contains(byte));
        assert_eq!(Some(position), flag.map(|at| count + at), "{name}: {by}");
    }
}

/// By the byte each one past the limit is refused with 16, by the chunk the first.
fn check_refused(name: &str, past: usize, step: &str, feed_in: &str) {
    let full = |part| told(part).iter().filter(|answer| answer.2).count();
    assert_eq!(full(step), past, "{name}");
    assert_eq!(full(feed_in), past.min(1), "{name}");
}

#[test]
fn positions_are_those_of_the_start_flags() {
    let (examples, answers) = (text("stdin"), text("stdout"));
    let answers = by_name(&answers);
    let (mut lines, mut past_limit) = (0, 0);
    for (name, example) in by_name(&examples) {
        let Some((mut count, groups)) = groups(example) else {
            continue;
        };
        let parts: Vec<&str> = answers[name].split("step:").skip(1).collect();
        assert_eq!(parts.len(), groups.len(), "{name}");
        for (group, part) in groups.iter().zip(parts) {
            let (step, feed_in) = part.split_once("feed_in:").unwrap();
            check_positions(name, count, group, step);
            check_positions(name, count, group, feed_in);
            let past = group.len().saturating_sub(LIMIT - count);
            check_refused(name, past, step, feed_in);
            past_limit += past;
            count = 0;
        }
        lines += 1;
    }
    assert!(lines >= 60 && past_limit >= 20, "{lines}, {past_limit}");
}

/// The answer to a workout's frame, from the contents that are written for it and
/// the extended frame from 00 that has them.
fn framed(address: u32, workout: &str) -> String {
    if !(0x01..=0xFC).contains(&address) {
        return "refused:9".to_string();
    }
    let contents = printed(&format!("it {workout}"));
    let contents = value(contents.trim_end(), "contents=");
    if contents.starts_with("refused:") {
        return contents.to_string();
    }
    let pairs: Vec<&str> = (0..contents.len() / 2)
        .map(|n| &contents[2 * n..][..2])
        .collect();
    let wire = printed(&format!("it extended {address:02X} 00 {}", pairs.join(" ")));
    value(wire.trim_end(), "written=").to_string()
}

#[test]
fn workout_frames_have_the_contents_that_are_written() {
    let (examples, answers) = (text("stdin"), text("stdout"));
    let answers = by_name(&answers);
    let mut count = 0;
    for (name, example) in by_name(&examples) {
        let words: Vec<&str> = example.split(' ').collect();
        let goal = match words[0] {
            "distance-frame" => "distance",
            "time-frame" => "time",
            _ => continue,
        };
        let workout = format!("{goal} {}", words[2..].join(" "));
        let written = framed(words[1].parse().unwrap(), &workout);
        assert_eq!(value(answers[name], "written="), written, "{name}");
        count += 1;
    }
    assert!(count >= 20, "{count} workouts are framed");
}

#[test]
fn every_example_has_one_answer() {
    let (examples, answers) = (text("stdin"), text("stdout"));
    let names = by_name(&examples);
    assert_eq!(names.len(), answers.lines().count());
    for line in answers.lines() {
        let name = line.split(' ').next().unwrap();
        assert!(names.contains_key(name), "{name}");
    }
}

#[test]
fn every_frame_of_the_sources_is_among_them() {
    let (examples, answers) = (text("stdin"), text("stdout"));
    let (examples, answers) = (by_name(&examples), by_name(&answers));
    for (name, wire, verdict) in examples::FRAMES {
        assert_eq!(examples[name], format!("frame {wire}"), "{name}");
        let answer = answers[name];
        assert!(answer.starts_with(&answer_to(verdict)), "{name}: {answer}");
    }
    for (name, contents) in examples::BARE {
        assert_eq!(examples[name], format!("contents {contents}"), "{name}");
    }
}

/// What the answer to a packet of the sources is, by its header and data unit.
fn packet_answer(wire: &str, header: &str, unit: &str) -> String {
    let [header, data] = [header, unit].map(|text| hex(text.as_bytes()).concat());
    let (len, wire) = (unit.len(), wire.replace(' ', ""));
    format!("kind=packet header={header} len={len} unit={data} written={wire}")
}

#[test]
fn every_packet_of_the_sources_is_among_them() {
    let (examples, answers) = (text("stdin"), text("stdout"));
    let (examples, answers) = (by_name(&examples), by_name(&answers));
    for (name, wire, header, unit) in treadmill::PACKETS {
        assert_eq!(examples[name], format!("packet-read 300 {wire}"), "{name}");
        assert_eq!(answers[name], packet_answer(wire, header, unit), "{name}");
    }
}

#[test]
fn packets_that_are_read_are_written_again() {
    let (examples, answers) = (text("stdin"), text("stdout"));
    let answers = by_name(&answers);
    let mut count = 0;
    for (name, example) in by_name(&examples) {
        let words: Vec<&str> = example.split(' ').collect();
        if words[0] == "packet-read" && answers[name].starts_with("kind=packet") {
            assert_eq!(
                value(answers[name], "written="),
                words[2..].concat(),
                "{name}"
            );
            count += 1;
        }
    }
    assert!(count >= 40, "{count} packets are read");
}

#[test]
fn packets_of_the_sources_are_told() {
    for (name, wire, header, unit) in treadmill::PACKETS {
        let answer = packet_answer(wire, header, unit);
        let told = printed(&format!("{name} packet-read 300 {wire}"));
        assert_eq!(told, format!("{name} {answer}\n"));
        let covered = hex([*header, *unit].concat().as_bytes()).join(" ");
        let written = printed(&format!("{name} packet-write 300 {covered}"));
        let wire = value(&answer, "written=");
        assert_eq!(written, format!("{name} written={wire}\n"));
    }
}

#[test]
fn packets_are_told() {
    let sound = "kind=packet header=533032 len=1 unit=77";
    let cases = [
        ("packet-read 300", "kind=refused code=6".to_string()),
        (
            "packet-read 1 01 53 30 32 77 30 30 17",
            format!("{sound} written=0153303277303017"),
        ),
        (
            "packet-read 0 01 53 30 32 77 30 30 17",
            "kind=refused code=1".to_string(),
        ),
        ("packet-write 7 53 30 32", "written=01533032383117".into()),
        ("packet-write 6 53 30 32", "written=refused:1".into()),
        (
            "packets 06 01 53 01 53 30 32 77 30 30 17 01 / 17",
            format!("by=3 kind=refused code=6 by=10 {sound} finish: kind=refused code=6 finish:"),
        ),
        (
            "packet-chunks 01 , , 53 01 53 30 32 77 30 , 30 17 06 / , 01",
            format!(
                "taken=1 taken=0 taken=2 kind=refused code=6 taken=5 taken=2 {sound} taken=1 \
                 finish: taken=0 taken=1 finish: kind=refused code=6"
            ),
        ),
    ];
    for (call, answer) in cases {
        assert_eq!(printed(&format!("it {call}")), format!("it {answer}\n"));
    }
}

/// Whether a name is one of the source documents' examples: a capital letter, then
/// a digit.
fn is_of_the_sources(name: &str) -> bool {
    let name = name.as_bytes();
    name[0].is_ascii_uppercase() && name[0] != b'P' && name[1].is_ascii_digit()
}

#[test]
fn no_other_is_told_of_the_sources() {
    let frames = examples::FRAMES.iter().map(|example| example.0);
    let bare = examples::BARE.iter().map(|example| example.0);
    let workouts = examples::WORKOUTS.iter().map(|example| example.0);
    let combined = numbers::COMBINED.iter().map(|example| example.0);
    let taken_apart = numbers::TAKEN_APART.iter().map(|example| example.0);
    let packets = treadmill::PACKETS.iter().map(|example| example.0);
    let numbers = combined.chain(taken_apart);
    let tables = frames.chain(bare).chain(numbers).chain(packets);
    let known: HashSet<&str> = tables.chain(workouts).collect();
    let examples = text("stdin");
    for name in by_name(&examples)
        .into_keys()
        .filter(|name| is_of_the_sources(name))
    {
        let name = name.trim_end_matches("-written");
        assert!(known.contains(name), "{name}");
    }
    for (name, _) in examples::GARBLED {
        assert!(!known.contains(name), "{name}");
    }
}

/// Bytes as they are printed, lowest first.
fn lowest_first(printed: &[u8], first: numbers::First) -> Vec<u8> {
    let mut bytes = printed.to_vec();
    if first == numbers::First::High {
        bytes.reverse();
    }
    bytes
}

fn hex(bytes: &[u8]) -> Vec<String> {
    bytes.iter().map(|byte| format!("{byte:02X}")).collect()
}

#[test]
fn every_number_is_put_together() {
    let (examples, answers) = (text("stdin"), text("stdout"));
    let (examples, answers) = (by_name(&examples), by_name(&answers));
    for (name, printed, first, value) in numbers::COMBINED {
        let bytes = hex(&lowest_first(printed, *first)).join(" ");
        assert_eq!(examples[name], format!("number {bytes}"), "{name}");
        assert_eq!(answers[name], format!("number={value}"), "{name}");
    }
}

#[test]
fn every_number_is_taken_apart() {
    let (examples, answers) = (text("stdin"), text("stdout"));
    let (examples, answers) = (by_name(&examples), by_name(&answers));
    for (name, value, printed, first) in numbers::TAKEN_APART {
        let call = format!("lease hold 01 {value} / bytes 01");
        assert_eq!(examples[name], call, "{name}");
        let mut token = lowest_first(printed, *first);
        token.resize(8, 0);
        let answer = format!("hold=done bytes={}", hex(&token).concat());
        assert_eq!(answers[name], answer, "{name}");
    }
}

/// A list of commands without places, and without the colon before no data.
fn without_places(list: &str) -> String {
    let mut parts = list.split('@');
    let mut text = parts.next().unwrap().to_string();
    for part in parts {
        text += part.trim_start_matches(|c: char| c.is_ascii_digit() || c == '+');
    }
    text.replace(":,", ",")
        .replace(":}", "}")
        .replace(":]", "]")
}

#[test]
fn commands_are_those_of_the_table() {
    let answers = text("stdout");
    let answers = by_name(&answers);
    for (name, list) in examples::LISTS {
        let commands = without_places(value(answers[name], "commands="));
        assert_eq!(commands, format!("[{}]", list.replace(' ', "")), "{name}");
    }
}

#[test]
fn stops_are_those_of_the_table() {
    let answers = text("stdout");
    let answers = by_name(&answers);
    for (name, _) in examples::LISTS {
        let stop = if examples::STOPS.contains(name) {
            "yes"
        } else {
            "no"
        };
        assert_eq!(value(answers[name], "stop="), stop, "{name}");
    }
}

/// The places of the commands at the top: of a list with what stands in wrappers
/// and data left out.
fn places(list: &str) -> Vec<&str> {
    let mut depth = 0;
    let entries = list.split(|c| {
        depth += i32::from(c == '{') - i32::from(c == '}');
        depth == 0 && c == ','
    });
    let place = |entry: &'_ str| entry.split([':', '{', '>']).next().map(str::len);
    entries
        .map(|entry| &entry[..place(entry).unwrap()])
        .collect()
}

#[test]
fn steps_tell_the_commands_and_then_15() {
    let answers = text("stdout");
    let answers = by_name(&answers);
    for (name, _) in examples::LISTS {
        let list = |key| value(answers[name], key).trim_matches(['[', ']']);
        let mut commands = places(list("commands="));
        commands.push("refused");
        for key in ["steps=", "by-steps="] {
            assert_eq!(places(list(key)), commands, "{name}");
            assert!(list(key).contains("refused:15"), "{name}");
        }
    }
}

/// The value that a reply or a workout of the table has in an answer, up to what
/// is written.
fn table_value(notation: &str) -> String {
    if let Some(code) = notation.strip_prefix("refusal ") {
        return format!("refused:{code}");
    }
    if notation.starts_with("toggle") {
        return reply_value(notation);
    }
    let words: Vec<&str> = notation.split([' ', ',']).collect();
    let [goal, number, "", "split", split, "", watts, "W"] = words[..] else {
        panic!("workout {notation}");
    };
    format!("{goal}:{number},split:{split},watts:{watts},written:")
}

fn reply_value(notation: &str) -> String {
    let (status, item) = notation.split_once("; 1 item: ").unwrap();
    let (toggle, state) = status.split_once(", ok, ").unwrap();
    let state = match state {
        "ready" => 1,
        "offline" => 9,
        _ => panic!("state {state}"),
    };
    let (byte, data) = item.trim_end_matches(']').split_once('[').unwrap();
    let data = data.replace(' ', "");
    let len = data.len() / 2;
    let toggle = toggle.replace(' ', ":");
    format!("{toggle},previous:0,state:{state},items:[{byte}@3+{len}:{data}],written:")
}

fn assert_values(key: &str, table: &[(&str, &str)]) {
    let answers = text("stdout");
    let answers = by_name(&answers);
    for (name, notation) in table {
        let told = value(answers[name], key);
        assert!(told.starts_with(&table_value(notation)), "{name}: {told}");
    }
}

#[test]
fn replies_are_those_of_the_table() {
    assert_values("reply=", examples::REPLIES);
}

#[test]
fn workouts_are_those_of_the_table() {
    assert_values("workout=", examples::WORKOUTS);
}
