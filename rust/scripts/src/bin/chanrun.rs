//! Runs a script of steps on a channel, from standard input, and prints the replies.
//!
//! It is the script program over the erased run, by hand: what it prints is compared byte for byte
//! with what the proved program prints. `docs/TOOLS.md` of the repository has the lines and
//! replies.
//!
//! ```text
//! printf 'bounded 1\ntry_send s0 1\ntry_send s0 2\n' | cargo run
//! ```

use std::fmt;
use std::io::{self, Read, Write};
use std::process::ExitCode;
use std::task::Poll;
use vamorilesh::run::{Global, Kind, Notice, OutOfMemory, Refusal, Reply, Run, Side, Step, Who};
use vamorilesh::{SendError, TryRecvError, TrySendError};

/// How many bytes a script may have.
const SCRIPT_LIMIT: usize = 1_048_576;
/// How many bytes a line may have, without its end.
const LINE_LIMIT: usize = 256;
/// The greatest capacity that a script may ask for.
const CAPACITY_LIMIT: u64 = 1_000_000;

/// What is wrong with a line.
enum Fault {
    LineTooLong,
    ChannelMissing,
    UnknownCommand,
    WrongWordCount,
    BadName,
    BadNumber,
    CapacityZero,
    CapacityTooLarge,
}

impl fmt::Display for Fault {
    fn fmt(&self, f: &mut fmt::Formatter<'_>) -> fmt::Result {
        f.write_str(match self {
            Fault::LineTooLong => "line is too long",
            Fault::ChannelMissing => "channel is missing",
            Fault::UnknownCommand => "unknown command",
            Fault::WrongWordCount => "wrong number of words",
            Fault::BadName => "bad name",
            Fault::BadNumber => "bad number",
            Fault::CapacityZero => "capacity is zero",
            Fault::CapacityTooLarge => "capacity is too large",
        })
    }
}

/// Why a script came to no end.
enum ScriptError {
    Fault { line: usize, fault: Fault },
    Read,
    Write,
    OutOfMemory,
    TooLong,
}

impl ScriptError {
    fn status(&self) -> u8 {
        match self {
            ScriptError::Fault { .. } => 2,
            _ => 1,
        }
    }
}

impl fmt::Display for ScriptError {
    fn fmt(&self, f: &mut fmt::Formatter<'_>) -> fmt::Result {
        match self {
            ScriptError::Fault { line, fault } => write!(f, "line {line}: {fault}"),
            ScriptError::Read => f.write_str("reading failed"),
            ScriptError::Write => f.write_str("writing failed"),
            ScriptError::OutOfMemory => f.write_str("out of memory"),
            ScriptError::TooLong => f.write_str("input is too long"),
        }
    }
}

impl From<OutOfMemory> for ScriptError {
    fn from(_: OutOfMemory) -> Self {
        ScriptError::OutOfMemory
    }
}

/// What a line asks for.
enum Command {
    Make(Step<u64>),
    Notice(Who),
    Settle,
}

type Word<'a> = &'a [u8];

fn number(word: Word<'_>) -> Result<u64, Fault> {
    match word {
        [] | [b'0', _, ..] => return Err(Fault::BadNumber),
        _ => {}
    }
    word.iter()
        .try_fold(0_u64, |number, byte| {
            let digit = byte.is_ascii_digit().then(|| u64::from(byte - b'0'))?;
            number.checked_mul(10)?.checked_add(digit)
        })
        .ok_or(Fault::BadNumber)
}

/// The number of a name, after the letters of its kind.
fn name(letters: &str, word: Word<'_>) -> Result<u64, Fault> {
    let digits = word.strip_prefix(letters.as_bytes()).ok_or(Fault::BadName)?;
    number(digits).map_err(|_| Fault::BadName)
}

fn sender(word: Word<'_>) -> Result<u64, Fault> {
    name("s", word)
}

fn receiver(word: Word<'_>) -> Result<u64, Fault> {
    name("r", word)
}

fn op(word: Word<'_>) -> Result<u64, Fault> {
    name("o", word)
}

fn side(word: Word<'_>) -> Result<Side, Fault> {
    sender(word).map(Side::Sender).or_else(|_| receiver(word).map(Side::Receiver))
}

fn who(word: Word<'_>) -> Result<Who, Fault> {
    op(word).map(Who::Op).or_else(|_| receiver(word).map(Who::Receiver))
}

fn clone(of: Word<'_>, new: Word<'_>) -> Result<Step<u64>, Fault> {
    if let Ok(of) = sender(of) {
        Ok(Step::CloneSender { of, new: sender(new)? })
    } else if let Ok(of) = receiver(of) {
        Ok(Step::CloneReceiver { of, new: receiver(new)? })
    } else if let Ok(of) = name("ws", of) {
        Ok(Step::CloneWeakSender { of, new: name("ws", new)? })
    } else {
        Ok(Step::CloneWeakReceiver { of: name("wr", of)?, new: name("wr", new)? })
    }
}

fn downgrade(of: Word<'_>, new: Word<'_>) -> Result<Step<u64>, Fault> {
    if let Ok(of) = sender(of) {
        Ok(Step::DowngradeSender { of, new: name("ws", new)? })
    } else {
        Ok(Step::DowngradeReceiver { of: receiver(of)?, new: name("wr", new)? })
    }
}

fn upgrade(of: Word<'_>, new: Word<'_>) -> Result<Step<u64>, Fault> {
    if let Ok(of) = name("ws", of) {
        Ok(Step::UpgradeSender { of, new: sender(new)? })
    } else {
        Ok(Step::UpgradeReceiver { of: name("wr", of)?, new: receiver(new)? })
    }
}

fn give_up(word: Word<'_>) -> Result<Step<u64>, Fault> {
    sender(word)
        .map(Step::DropSender)
        .or_else(|_| receiver(word).map(Step::DropReceiver))
        .or_else(|_| name("ws", word).map(Step::DropWeakSender))
        .or_else(|_| name("wr", word).map(Step::DropWeakReceiver))
        .or_else(|_| op(word).map(Step::DropOp))
}

/// How many words stand after a verb.
fn words_behind(verb: &str) -> Option<usize> {
    match verb {
        "settle" => Some(0),
        "try_recv" | "close" | "is_closed" | "is_empty" | "is_full" | "len" | "capacity"
        | "senders" | "receivers" | "is_terminated" | "drop" | "poll" | "next" | "notice" => {
            Some(1)
        }
        "try_send" | "force_send" | "clone" | "downgrade" | "upgrade" | "recv" | "closed" => {
            Some(2)
        }
        "send" => Some(3),
        _ => None,
    }
}

fn step(verb: &str, words: &[Word<'_>]) -> Result<Step<u64>, Fault> {
    Ok(match (verb, words) {
        ("try_recv", [r]) => Step::TryRecv(receiver(r)?),
        ("close", [h]) => Step::Close(side(h)?),
        ("is_closed", [h]) => Step::IsClosed(side(h)?),
        ("is_empty", [h]) => Step::IsEmpty(side(h)?),
        ("is_full", [h]) => Step::IsFull(side(h)?),
        ("len", [h]) => Step::Len(side(h)?),
        ("capacity", [h]) => Step::Capacity(side(h)?),
        ("senders", [h]) => Step::SenderCount(side(h)?),
        ("receivers", [h]) => Step::ReceiverCount(side(h)?),
        ("is_terminated", [r]) => Step::IsTerminated(receiver(r)?),
        ("drop", [x]) => give_up(x)?,
        ("poll", [o]) => Step::Poll(op(o)?),
        ("next", [r]) => Step::PollNext(receiver(r)?),
        ("try_send", [s, m]) => Step::TrySend(sender(s)?, number(m)?),
        ("force_send", [s, m]) => Step::ForceSend(sender(s)?, number(m)?),
        ("clone", [x, y]) => clone(x, y)?,
        ("downgrade", [x, y]) => downgrade(x, y)?,
        ("upgrade", [x, y]) => upgrade(x, y)?,
        ("recv", [o, r]) => Step::StartRecv { op: op(o)?, receiver: receiver(r)? },
        ("closed", [o, s]) => Step::StartClosed { op: op(o)?, sender: sender(s)? },
        ("send", [o, s, m]) => Step::StartSend { op: op(o)?, sender: sender(s)?, msg: number(m)? },
        _ => return Err(Fault::UnknownCommand),
    })
}

/// The first word of a line, and the words after it.
fn split(line: &[u8]) -> Result<(&str, Vec<Word<'_>>), Fault> {
    if line.len() > LINE_LIMIT {
        return Err(Fault::LineTooLong);
    }
    let mut words = line.split(|byte| *byte == b' ');
    // A word that isn't text is no verb, and neither is the empty one.
    let verb = words.next().and_then(|word| std::str::from_utf8(word).ok()).unwrap_or_default();
    Ok((verb, words.collect()))
}

fn command(line: &[u8]) -> Result<Command, Fault> {
    let (verb, words) = split(line)?;
    if words.len() != words_behind(verb).ok_or(Fault::UnknownCommand)? {
        return Err(Fault::WrongWordCount);
    }
    match (verb, words.as_slice()) {
        ("settle", []) => Ok(Command::Settle),
        ("notice", [word]) => Ok(Command::Notice(who(word)?)),
        (verb, words) => Ok(Command::Make(step(verb, words)?)),
    }
}

fn kind(line: &[u8]) -> Result<Kind, Fault> {
    let (verb, words) = split(line)?;
    match (verb, words.as_slice()) {
        ("unbounded", []) => Ok(Kind::Unbounded),
        ("bounded", [word]) => match number(word)? {
            0 => Err(Fault::CapacityZero),
            capacity if capacity > CAPACITY_LIMIT => Err(Fault::CapacityTooLarge),
            capacity => Ok(Kind::Bounded(capacity as usize)),
        },
        ("bounded" | "unbounded", _) => Err(Fault::WrongWordCount),
        _ => Err(Fault::ChannelMissing),
    }
}

fn reply_text(reply: &Reply<u64>) -> String {
    match reply {
        Reply::Done => "done".into(),
        Reply::TrySent(Ok(())) | Reply::SendPolled(Poll::Ready(Ok(()))) => "ok".into(),
        Reply::TrySent(Err(TrySendError::Full(message))) => format!("full {message}"),
        Reply::TrySent(Err(TrySendError::Closed(message)))
        | Reply::Forced(Err(SendError(message)))
        | Reply::SendPolled(Poll::Ready(Err(SendError(message)))) => format!("closed {message}"),
        Reply::Forced(Ok(None)) => "ok none".into(),
        Reply::Forced(Ok(Some(message))) => format!("ok some {message}"),
        Reply::Received(Ok(message)) | Reply::RecvPolled(Poll::Ready(Ok(message))) => {
            format!("ok {message}")
        }
        Reply::Received(Err(TryRecvError::Empty)) => "empty".into(),
        Reply::Received(Err(TryRecvError::Closed)) | Reply::RecvPolled(Poll::Ready(Err(_))) => {
            "closed".into()
        }
        Reply::Flag(flag) => flag.to_string(),
        Reply::Count(count) => count.to_string(),
        Reply::Capacity(Some(capacity)) => format!("some {capacity}"),
        Reply::Capacity(None) | Reply::Upgraded(false) => "none".into(),
        Reply::Upgraded(true) => "ok".into(),
        Reply::ClosedPolled(Poll::Ready(())) => "ready".into(),
        Reply::NextPolled(Poll::Ready(Some(message))) => format!("some {message}"),
        Reply::NextPolled(Poll::Ready(None)) => "end".into(),
        Reply::SendPolled(Poll::Pending)
        | Reply::RecvPolled(Poll::Pending)
        | Reply::ClosedPolled(Poll::Pending)
        | Reply::NextPolled(Poll::Pending) => "pending".into(),
        Reply::Refused(refusal, _) => format!("refused: {}", refusal_text(*refusal)),
    }
}

fn refusal_text(refusal: Refusal) -> &'static str {
    match refusal {
        Refusal::Unknown => "unknown",
        Refusal::Taken => "taken",
        Refusal::Borrowed => "borrowed",
        Refusal::TooMany => "too many",
        Refusal::OutOfMemory => "out of memory",
    }
}

fn notice_text(notice: Notice) -> &'static str {
    match notice {
        Notice::Absent => "absent",
        Notice::Untold => "untold",
        Notice::Told => "told",
    }
}

fn who_text(who: Who) -> String {
    match who {
        Who::Op(op) => format!("o{op}"),
        Who::Receiver(receiver) => format!("r{receiver}"),
    }
}

/// Does a command. The text is what answers it.
fn answer(run: &mut Run<u64>, command: Command) -> Result<String, ScriptError> {
    match command {
        Command::Make(step) => match run.step(step) {
            Reply::Refused(Refusal::OutOfMemory, _) => Err(ScriptError::OutOfMemory),
            reply => Ok(format!("{}\n", reply_text(&reply))),
        },
        Command::Notice(who) => Ok(format!("{}\n", notice_text(run.notice_of(who)))),
        Command::Settle => {
            let settled = run.settle()?;
            let mut text = format!("settled {} {}\n", settled.polls, settled.finished.len());
            for (who, reply) in settled.finished {
                text += &format!("{} {}\n", who_text(who), reply_text(&reply));
            }
            Ok(text)
        }
    }
}

/// Reads the whole script.
fn read_script(reader: impl Read) -> Result<Vec<u8>, ScriptError> {
    let mut input = Vec::new();
    let mut reader = reader.take(SCRIPT_LIMIT as u64 + 1);
    reader.read_to_end(&mut input).map_err(|_| ScriptError::Read)?;
    if input.len() > SCRIPT_LIMIT {
        return Err(ScriptError::TooLong);
    }
    Ok(input)
}

/// Does the lines of a script in order, up to the first faulty one.
fn run_script(reader: impl Read, writer: &mut impl Write) -> Result<(), ScriptError> {
    let input = read_script(reader)?;
    let text = input.strip_suffix(b"\n").unwrap_or(&input);
    let mut lines = (1..).zip(text.split(|byte| *byte == b'\n'));
    let first = lines.next().map_or(&[][..], |(_, line)| line);
    let kind = kind(first).map_err(|fault| ScriptError::Fault { line: 1, fault })?;
    let mut run = Run::new(Global, kind)?;
    for (line, words) in lines {
        let command = command(words).map_err(|fault| ScriptError::Fault { line, fault })?;
        let text = answer(&mut run, command)?;
        writer.write_all(text.as_bytes()).map_err(|_| ScriptError::Write)?;
    }
    Ok(())
}

fn main() -> ExitCode {
    if std::env::args_os().len() > 1 {
        eprintln!("chanrun takes no arguments");
        return ExitCode::from(2);
    }
    let mut writer = io::BufWriter::new(io::stdout());
    let done = run_script(io::stdin(), &mut writer);
    // If the text can't be written, nothing is said of the script.
    let done = writer.flush().map_err(|_| ScriptError::Write).and(done);
    match done {
        Ok(()) => ExitCode::SUCCESS,
        Err(error) => {
            eprintln!("{error}");
            ExitCode::from(error.status())
        }
    }
}
