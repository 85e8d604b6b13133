//! Runs the worked examples on standard input and prints a line for each. The
//! head of `crates/vectors/stdin` describes both.

use std::io::{self, Read as _};
use std::process::ExitCode;

use plain::command::{self, Cursor, Found};
use plain::frame::{self, Origin, Read};
use plain::line::{Answer, Line};
use plain::packet_line::{self, PacketLine};
use plain::reply::{self, Status};
use plain::workout::{self, Goal, Workout};
use plain::{lease, packet, refusal};

/// Room for whatever the examples write.
const ROOM: usize = 300;
const TABLE_LEN: usize = 2_048;
const TOKEN_LEN: usize = 8;

fn main() -> ExitCode {
    let mut text = String::new();
    if let Err(error) = io::stdin().read_to_string(&mut text) {
        eprintln!("{error}");
        return ExitCode::FAILURE;
    }
    for line in text.lines().filter(|line| is_example(line)) {
        let Some(answer) = run(line) else {
            eprintln!("not an example: {line}");
            return ExitCode::FAILURE;
        };
        println!("{answer}");
    }
    ExitCode::SUCCESS
}

fn is_example(line: &str) -> bool {
    !line.is_empty() && !line.starts_with('#')
}

/// The answer to an example, or nothing where the line does not have its form.
fn run(line: &str) -> Option<String> {
    let (name, rest) = line.split_once(' ')?;
    let (operation, arguments) = rest.split_once(' ').unwrap_or((rest, ""));
    let answer = match operation {
        "frame" => frame_answer(Origin::Trace, &bytes(arguments)?),
        "live-frame" => frame_answer(Origin::Live, &bytes(arguments)?),
        "contents" => contents_answer(&bytes(arguments)?),
        "standard" => standard_answer(Origin::Trace, &bytes(arguments)?),
        "live-standard" => standard_answer(Origin::Live, &bytes(arguments)?),
        "extended" => extended_answer(&bytes(arguments)?)?,
        "standard-length" => standard_length_answer(Origin::Trace, &bytes(arguments)?),
        "live-length" => standard_length_answer(Origin::Live, &bytes(arguments)?),
        "extended-length" => extended_length_answer(&bytes(arguments)?)?,
        "distance" => workout_answer(workout_of(arguments, distance)?),
        "time" => workout_answer(workout_of(arguments, time)?),
        "distance-frame" => workout_frame_answer(arguments, distance)?,
        "time-frame" => workout_frame_answer(arguments, time)?,
        "lease" => lease_answer(arguments)?,
        "line" => line_answer(Origin::Trace, 0, arguments)?,
        "live-line" => line_answer(Origin::Live, 0, arguments)?,
        "line-at" => line_at_answer(Origin::Trace, arguments)?,
        "live-line-at" => line_at_answer(Origin::Live, arguments)?,
        "chunks" => chunks_answer(Origin::Trace, 0, arguments)?,
        "live-chunks" => chunks_answer(Origin::Live, 0, arguments)?,
        "chunks-at" => chunks_at_answer(Origin::Trace, arguments)?,
        "live-chunks-at" => chunks_at_answer(Origin::Live, arguments)?,
        "command" => command_answer(&bytes(arguments)?)?,
        "inside" => inside_answer(&bytes(arguments)?)?,
        "item" => item_answer(&bytes(arguments)?)?,
        "step" => step_answer(&bytes(arguments)?)?,
        "status" => status_answer(&bytes(arguments)?)?,
        "names" => names_answer(),
        "number" => format!(" number={}", number(&bytes(arguments)?)),
        _ => packet_answer(operation, arguments)?,
    };
    Some(format!("{name}{answer}"))
}

/// The answer to an example of packets.
fn packet_answer(operation: &str, arguments: &str) -> Option<String> {
    match operation {
        "packet-read" => packet_read_answer(arguments),
        "packet-write" => packet_write_answer(arguments),
        "packets" => packets_answer(arguments),
        "packet-chunks" => packet_chunks_answer(arguments),
        _ => None,
    }
}

fn bytes(text: &str) -> Option<Vec<u8>> {
    let byte = |word| u8::from_str_radix(word, 16).ok();
    text.split_whitespace().map(byte).collect()
}

fn hex(bytes: &[u8]) -> String {
    bytes.iter().map(|byte| format!("{byte:02X}")).collect()
}

/// What a writer leaves first in its output.
fn written(write: impl FnOnce(&mut [u8]) -> Result<usize, u8>) -> Result<Vec<u8>, u8> {
    written_into(ROOM, write)
}

/// The same with an output of so many bytes.
fn written_into(
    room: usize,
    write: impl FnOnce(&mut [u8]) -> Result<usize, u8>,
) -> Result<Vec<u8>, u8> {
    let mut out = vec![0; room];
    let len = write(&mut out)?;
    out.truncate(len);
    Ok(out)
}

/// The bytes, or the refusal, as the value of a key.
fn value(written: Result<Vec<u8>, u8>) -> String {
    written.map_or_else(refused, |bytes| hex(&bytes))
}

fn refused(code: u8) -> String {
    format!("refused:{code}")
}

fn frame_answer(origin: Origin, wire: &[u8]) -> String {
    let mut out = [0; ROOM];
    let read = match frame::read(origin, wire, &mut out) {
        Ok(read) => read,
        Err(code) => return refusal_of(code),
    };
    let contents = &out[..len_of(read)];
    let again = value(written(|out| match read {
        Read::Standard { .. } => frame::write_standard(origin, contents, out),
        Read::Extended { to, from, .. } => frame::write_extended(to, from, contents, out),
    }));
    let told = told_frame(read, contents);
    let inside = contents_answer(contents);
    format!("{told} written={again}{inside}")
}

fn refusal_of(code: u8) -> String {
    format!(" kind=refused code={code}")
}

fn len_of(read: Read) -> usize {
    match read {
        Read::Standard { len } | Read::Extended { len, .. } => len,
    }
}

fn told_frame(read: Read, contents: &[u8]) -> String {
    let head = match read {
        Read::Standard { len } => format!(" kind=std len={len}"),
        Read::Extended { to, from, len } => {
            format!(" kind=ext to={to:02X} from={from:02X} len={len}")
        }
    };
    format!("{head} contents={}", hex(contents))
}

fn contents_answer(contents: &[u8]) -> String {
    let commands = top_commands(contents);
    let count = count(contents);
    let steps = steps_over(contents);
    let by_steps = by_steps(contents);
    let stop = if command::terminates(contents) {
        "yes"
    } else {
        "no"
    };
    let reply = reply_in(contents).unwrap_or_else(refused);
    let workout = workout_in(contents).unwrap_or_else(refused);
    format!(
        " commands={commands} count={count} steps=[{steps}] by-steps=[{by_steps}] stop={stop} \
         reply={reply} workout={workout}"
    )
}

/// Entries up to the first that does not exist, or why they can't be told.
fn entries(nth: impl Fn(usize) -> Result<Found, u8>) -> Result<Vec<Found>, u8> {
    let mut entries = Vec::new();
    loop {
        match nth(entries.len()) {
            Ok(entry) => entries.push(entry),
            Err(refusal::NONE) => return Ok(entries),
            Err(code) => return Err(code),
        }
    }
}

fn place(entry: Found) -> String {
    format!("{:02X}@{}+{}", entry.byte, entry.start, entry.len)
}

fn with_data(contents: &[u8], entry: Found) -> String {
    format!("{}:{}", place(entry), hex(data_of(contents, entry)))
}

fn data_of(contents: &[u8], entry: Found) -> &[u8] {
    &contents[entry.start..][..entry.len]
}

fn joined(entries: &[Found], show: impl Fn(usize, Found) -> String) -> String {
    let shown = entries.iter().enumerate();
    let texts: Vec<String> = shown.map(|(index, &entry)| show(index, entry)).collect();
    texts.join(",")
}

fn top_commands(contents: &[u8]) -> String {
    let list = entries(|n| command::nth(contents, n));
    let commands = list.map_or_else(refused, |list| {
        joined(&list, |index, entry| top_command(contents, index, entry))
    });
    format!("[{commands}]")
}

fn top_command(contents: &[u8], index: usize, entry: Found) -> String {
    if !command::is_wrapper(entry.byte) {
        return with_data(contents, entry);
    }
    let inside = entries(|n| command::nth_inside(contents, index, n));
    let inside = inside.map_or_else(refused, |list| {
        joined(&list, |_, entry| with_data(contents, entry))
    });
    format!("{}{{{inside}}}", place(entry))
}

/// How many commands there are, or the index of the one that fails.
fn count(contents: &[u8]) -> String {
    match command::count(contents) {
        Ok(count) => count.to_string(),
        Err(index) => format!("unsound@{index}"),
    }
}

/// What a cursor finds step by step, and where it then stands, up to its first
/// refusal.
fn steps_over(contents: &[u8]) -> String {
    let mut cursor = Cursor::new(contents);
    let mut steps = Vec::new();
    loop {
        let found = cursor.step();
        let text = found_text(contents, found);
        steps.push(format!("{text}>{}", cursor.index()));
        if found.is_err() {
            return steps.join(",");
        }
    }
}

/// The commands up to the first refusal, each reached by the steps of a new
/// cursor.
fn by_steps(contents: &[u8]) -> String {
    let mut texts = Vec::new();
    loop {
        let found = nth_by_steps(contents, texts.len());
        texts.push(found_text(contents, found));
        if found.is_err() {
            return texts.join(",");
        }
    }
}

fn nth_by_steps(contents: &[u8], n: usize) -> Result<Found, u8> {
    let mut cursor = Cursor::new(contents);
    for _ in 0..n {
        cursor.step()?;
    }
    cursor.step()
}

fn found_text(contents: &[u8], found: Result<Found, u8>) -> String {
    found.map_or_else(refused, |entry| with_data(contents, entry))
}

fn command_answer(arguments: &[u8]) -> Option<String> {
    let (&n, contents) = arguments.split_first()?;
    let nth = found_text(contents, command::nth(contents, n.into()));
    let by_steps = found_text(contents, nth_by_steps(contents, n.into()));
    Some(format!(" nth={nth} by-steps={by_steps}"))
}

fn inside_answer(arguments: &[u8]) -> Option<String> {
    let &[wrapper, n, ref contents @ ..] = arguments else {
        return None;
    };
    let found = command::nth_inside(contents, wrapper.into(), n.into());
    Some(format!(" nth={}", found_text(contents, found)))
}

fn item_answer(arguments: &[u8]) -> Option<String> {
    let (&n, contents) = arguments.split_first()?;
    let found = reply::nth_item(contents, n.into());
    Some(format!(" nth={}", found_text(contents, found)))
}

fn step_answer(arguments: &[u8]) -> Option<String> {
    let (&at, contents) = arguments.split_first()?;
    let mut cursor = Cursor::at(contents, at.into());
    let found = found_text(contents, cursor.step());
    Some(format!(" found={found} next={}", cursor.index()))
}

fn status_answer(arguments: &[u8]) -> Option<String> {
    let &[toggle, previous, state] = arguments else {
        return None;
    };
    let status = Status::of(toggle != 0, previous, state);
    let byte = status.map_or_else(refused, |status| hex(&[status.byte()]));
    Some(format!(" byte={byte}"))
}

fn names_answer() -> String {
    let results = [
        Status::PREVIOUS_OK,
        Status::PREVIOUS_REJECT,
        Status::PREVIOUS_BAD,
        Status::PREVIOUS_NOT_READY,
    ];
    let states = [
        Status::ERROR,
        Status::READY,
        Status::IDLE,
        Status::HAVE_ID,
        Status::IN_USE,
        Status::PAUSE,
        Status::FINISH,
        Status::MANUAL,
        Status::OFFLINE,
    ];
    format!(" results={} states={}", hex(&results), hex(&states))
}

fn reply_in(contents: &[u8]) -> Result<String, u8> {
    let (status, count) = reply::read(contents)?;
    let items = entries(|n| reply::nth_item(contents, n))?;
    assert_eq!(items.len(), count);
    let Status {
        toggle,
        previous,
        state,
    } = status;
    let toggle = u8::from(toggle);
    let again = value(rewritten_reply(contents, &items));
    let items = joined(&items, |_, item| with_data(contents, item));
    Ok(format!(
        "toggle:{toggle},previous:{previous},state:{state},items:[{items}],written:{again}"
    ))
}

/// The reply written from what stands before its last item and that item, or from
/// its status.
fn rewritten_reply(contents: &[u8], items: &[Found]) -> Result<Vec<u8>, u8> {
    let Some(&last) = items.last() else {
        return written(|out| reply::write_status(contents[0], out));
    };
    let prior = &contents[..last.start - 2];
    written(|out| reply::write_item(prior, last.byte, data_of(contents, last), out))
}

fn workout_in(contents: &[u8]) -> Result<String, u8> {
    let workout = workout::read(contents)?;
    let again = value(written(|out| workout::write(workout, out)));
    let goal = match workout.goal {
        Goal::Distance { metres, split } => format!("distance:{metres},split:{split}"),
        Goal::Time { seconds, split } => format!("time:{seconds},split:{split}"),
    };
    Ok(format!("{goal},watts:{},written:{again}", workout.watts))
}

fn standard_answer(origin: Origin, contents: &[u8]) -> String {
    writing_answer(written(|out| frame::write_standard(origin, contents, out)))
}

fn extended_answer(arguments: &[u8]) -> Option<String> {
    let &[to, from, ref contents @ ..] = arguments else {
        return None;
    };
    let wire = written(|out| frame::write_extended(to, from, contents, out));
    Some(writing_answer(wire))
}

fn writing_answer(wire: Result<Vec<u8>, u8>) -> String {
    format!(" written={}", value(wire))
}

fn standard_length_answer(origin: Origin, contents: &[u8]) -> String {
    length_answer(frame::standard_length(origin, contents))
}

fn extended_length_answer(arguments: &[u8]) -> Option<String> {
    let &[to, from, ref contents @ ..] = arguments else {
        return None;
    };
    let length = frame::extended_length(to, from, contents);
    Some(length_answer(length))
}

fn length_answer(length: Result<usize, u8>) -> String {
    let told = length.map_or_else(refused, |len| len.to_string());
    format!(" length={told}")
}

fn distance(metres: u32, split: u32) -> Goal {
    Goal::Distance { metres, split }
}

fn time(seconds: u32, split: u32) -> Goal {
    Goal::Time { seconds, split }
}

/// The workout of three words: its goal's number, the split and the power.
fn workout_of(arguments: &str, goal: impl Fn(u32, u32) -> Goal) -> Option<Workout> {
    let mut words = arguments.split(' ');
    let goal = goal(words.next()?.parse().ok()?, words.next()?.parse().ok()?);
    let watts = words.next()?.parse().ok()?;
    Some(Workout { goal, watts })
}

fn workout_answer(workout: Workout) -> String {
    let contents = match written(|out| workout::write(workout, out)) {
        Ok(contents) => contents,
        Err(code) => return format!(" contents={}", refused(code)),
    };
    let wire = value(written(|out| {
        frame::write_standard(Origin::Trace, &contents, out)
    }));
    format!(" contents={} written={wire}", hex(&contents))
}

/// The workout of the words after the first, in a frame to the address that the
/// first is.
fn workout_frame_answer(arguments: &str, goal: impl Fn(u32, u32) -> Goal) -> Option<String> {
    let (address, numbers) = arguments.split_once(' ')?;
    let address = address.parse().ok()?;
    let workout = workout_of(numbers, goal)?;
    let wire = written(|out| workout::write_frame(address, workout, out));
    Some(writing_answer(wire))
}

fn lease_answer(arguments: &str) -> Option<String> {
    let mut table = [0; TABLE_LEN];
    let call = |call| lease_call(&mut table, call);
    arguments.split(" / ").map(call).collect()
}

fn lease_call(table: &mut [u8], call: &str) -> Option<String> {
    let mut words = call.split(' ');
    let name = words.next()?;
    let address = u32::from_str_radix(words.next()?, 16).ok()?;
    let token = words.next().map_or(Some(0), |token| token.parse().ok())?;
    let done = |()| "done".to_string();
    let answer = match name {
        "hold" => lease::hold(table, address, token).map_or_else(refused, done),
        "release" => lease::release(table, address, token).map_or_else(refused, done),
        "stop" => value(written(|out| lease::stop(table, address, token, out))),
        "bytes" => hex(&table[usize::try_from(address).ok()? * TOKEN_LEN..][..TOKEN_LEN]),
        _ => return None,
    };
    Some(format!(" {name}={answer}"))
}

/// As `line`, with readers that have taken as many bytes as the first word says.
fn line_at_answer(origin: Origin, arguments: &str) -> Option<String> {
    let (count, groups) = arguments.split_once(' ')?;
    line_answer(origin, count.parse().ok()?, groups)
}

/// The answers of a reader that gets single bytes and of one that gets a group's
/// bytes at once; both have taken `count` bytes and are finished after each group.
fn line_answer(origin: Origin, count: u32, arguments: &str) -> Option<String> {
    let mut single = Line::with_count(origin, count);
    let mut chunked = single.clone();
    let group = |group| {
        let bytes = bytes(group)?;
        let step = step_all(&mut single, &bytes);
        let feed_in = feed_all(&mut chunked, &bytes);
        Some(format!(" step:{step} feed_in:{feed_in}"))
    };
    arguments.split(" / ").map(group).collect()
}

/// The answers of the reader by value, whose array has zeros behind the contents.
fn step_all(line: &mut Line, bytes: &[u8]) -> String {
    let mut answers = String::new();
    for (by, &byte) in bytes.iter().enumerate() {
        let answer = line.feed(byte);
        answers += &stepped_by(by, answer, line.contents());
    }
    let last = line.finish();
    answers + &stepped_by(bytes.len(), last, line.contents())
}

fn stepped_by(by: usize, answer: Answer, contents: &[u8]) -> String {
    let nonzero = match answer {
        Answer::Nothing => return String::new(),
        Answer::Frame { .. } => contents.iter().filter(|&&byte| byte != 0).count(),
        Answer::Refused { .. } => 0,
    };
    format!("{} nonzero={nonzero}", told_by(by, answer, contents))
}

/// The answers up to the first byte that is not taken.
fn feed_all(line: &mut Line, bytes: &[u8]) -> String {
    let mut answers = String::new();
    let mut fed = 0;
    while fed < bytes.len() {
        let (taken, answer) = line.feed_chunk(&bytes[fed..]);
        let by = fed + taken.saturating_sub(1);
        answers += &told_by(by, answer, line.contents());
        if taken == 0 {
            break;
        }
        fed += taken;
    }
    let last = line.finish();
    answers + &told_by(bytes.len(), last, line.contents())
}

fn told_by(by: usize, answer: Answer, contents: &[u8]) -> String {
    match answer {
        Answer::Nothing => String::new(),
        _ => format!(" by={by}{}", told(answer, contents)),
    }
}

fn told(answer: Answer, contents: &[u8]) -> String {
    match answer {
        Answer::Nothing => String::new(),
        Answer::Frame { position, frame } => {
            format!(" at={position}{}", told_frame(frame, contents))
        }
        Answer::Refused { position, code } => format!(" at={position}{}", refusal_of(code)),
    }
}

/// The first argument is how many bytes the reader has taken.
fn chunks_at_answer(origin: Origin, arguments: &str) -> Option<String> {
    let (count, groups) = arguments.split_once(' ')?;
    chunks_answer(origin, count.parse().ok()?, groups)
}

/// The answers of a reader that has taken so many bytes and gets chunks, and which is
/// finished after each group of them.
fn chunks_answer(origin: Origin, count: u32, arguments: &str) -> Option<String> {
    let mut line = Line::with_count(origin, count);
    let group = |group: &str| {
        let chunk = |chunk| Some(chunk_answers(&mut line, &bytes(chunk)?));
        let calls: String = group.split(',').map(chunk).collect::<Option<_>>()?;
        let last = line.finish();
        Some(format!("{calls} finish:{}", told(last, line.contents())))
    };
    arguments.split('/').map(group).collect()
}

/// The answers to a chunk, and to what a call did not take of it, until one takes
/// none.
fn chunk_answers(line: &mut Line, chunk: &[u8]) -> String {
    let mut answers = String::new();
    let mut rest = chunk;
    loop {
        let (taken, answer) = line.feed_chunk(rest);
        answers += &format!(" taken={taken}{}", told(answer, line.contents()));
        rest = &rest[taken..];
        if taken == 0 || rest.is_empty() {
            return answers;
        }
    }
}

/// The first word, a number of bytes, and the bytes after it.
fn room_and_bytes(arguments: &str) -> Option<(usize, Vec<u8>)> {
    let (room, rest) = arguments.split_once(' ').unwrap_or((arguments, ""));
    Some((room.parse().ok()?, bytes(rest)?))
}

fn packet_read_answer(arguments: &str) -> Option<String> {
    let (room, wire) = room_and_bytes(arguments)?;
    let mut out = vec![0; room];
    let read = match packet::read(&wire, &mut out) {
        Ok(read) => read,
        Err(code) => return Some(refusal_of(code)),
    };
    let unit = &out[..read.len];
    let again = value(written(|out| packet::write(read.header, unit, out)));
    Some(format!("{} written={again}", told_packet(read, unit)))
}

fn told_packet(read: packet::Read, unit: &[u8]) -> String {
    let packet::Read { header, len } = read;
    let (header, unit) = (hex(&header), hex(unit));
    format!(" kind=packet header={header} len={len} unit={unit}")
}

fn packet_write_answer(arguments: &str) -> Option<String> {
    let (room, rest) = room_and_bytes(arguments)?;
    let &[letter, tens, ones, ref unit @ ..] = &rest[..] else {
        return None;
    };
    let header = [letter, tens, ones];
    let wire = written_into(room, |out| packet::write(header, unit, out));
    Some(writing_answer(wire))
}

/// The answers of a packet reader that gets single bytes and is finished after each
/// group.
fn packets_answer(arguments: &str) -> Option<String> {
    let mut line = PacketLine::new();
    let group = |group| {
        let mut answers = String::new();
        for (by, byte) in bytes(group)?.into_iter().enumerate() {
            if let Some(answer) = line.feed(byte) {
                answers += &format!(" by={by}{}", told_of(answer, line.unit()));
            }
        }
        Some(answers + &packets_finished(&mut line))
    };
    arguments.split('/').map(group).collect()
}

fn packets_finished(line: &mut PacketLine) -> String {
    let refused = line.finish().and_then(Result::err);
    format!(" finish:{}", refused.map(refusal_of).unwrap_or_default())
}

fn told_of(answer: packet_line::Answer, unit: &[u8]) -> String {
    answer.map_or_else(refusal_of, |read| told_packet(read, unit))
}

/// The answers of a packet reader that gets chunks and is finished after each group of
/// them.
fn packet_chunks_answer(arguments: &str) -> Option<String> {
    let mut line = PacketLine::new();
    let group = |group: &str| {
        let chunk = |chunk| Some(packet_chunk_answers(&mut line, &bytes(chunk)?));
        let calls: String = group.split(',').map(chunk).collect::<Option<_>>()?;
        Some(calls + &packets_finished(&mut line))
    };
    arguments.split('/').map(group).collect()
}

/// The answers to a chunk, and to what a call did not take of it.
fn packet_chunk_answers(line: &mut PacketLine, chunk: &[u8]) -> String {
    let mut answers = String::new();
    let mut rest = chunk;
    loop {
        let (taken, answer) = line.feed_chunk(rest);
        let told = answer.map(|answer| told_of(answer, line.unit()));
        answers += &format!(" taken={taken}{}", told.unwrap_or_default());
        rest = &rest[taken..];
        if rest.is_empty() {
            return answers;
        }
    }
}

fn number(bytes: &[u8]) -> u64 {
    let lower = |number: u64, &byte: &u8| 256 * number + u64::from(byte);
    bytes.iter().rev().fold(0, lower)
}
