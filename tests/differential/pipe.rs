//! The planner behind a pipe: the harness program, run as a child, which
//! takes a case and answers it. harness.c says the form.

use std::io::{Read, Result, Write};
use std::process::{Child, ChildStdin, ChildStdout, Command, Stdio};

pub const OP_READ: u32 = 1;
pub const OP_WRITE: u32 = 2;
pub const OP_BUILD: u32 = 3;
pub const OP_LIST: u32 = 4;
pub const OP_READ_BACK: u32 = 5;

/// What the harness is asked: the call, what it is given, and the sizes in
/// bytes of the buffers that it is lent.
#[derive(Clone, Default)]
pub struct Asked {
    pub op: u32,
    pub request: [u32; 8],
    /// Layer, node, cell.
    pub label: [u32; 3],
    pub sheet: Vec<u8>,
    pub arcs: Vec<u32>,
    pub labels: Vec<u32>,
    pub first: usize,
    pub second: usize,
}

/// What came of it: guards and inputs that changed, the answer, the request
/// words and the costs, and every byte of the lent buffers.
#[derive(Clone, PartialEq, Eq)]
pub struct Outcome {
    pub faults: u32,
    pub answer: u64,
    pub request: [u32; 8],
    pub costs: [u32; 3],
    pub first: Vec<u8>,
    pub second: Vec<u8>,
}

impl Outcome {
    /// What a call leaves that writes nothing: the request as it was given,
    /// the lent buffers as they came.
    pub fn untouched(asked: &Asked) -> Outcome {
        let costs = pattern_words(3);
        Outcome {
            faults: 0,
            answer: 0,
            request: asked.request,
            costs: [costs[0], costs[1], costs[2]],
            first: pattern(asked.first),
            second: pattern(asked.second),
        }
    }
}

/// What a lent buffer holds before the call.
pub fn pattern(bytes: usize) -> Vec<u8> {
    (0..bytes)
        .map(|i| 0xa5 ^ (i.wrapping_mul(37) & 0xff) as u8)
        .collect()
}

/// The same, of words.
pub fn pattern_words(count: usize) -> Vec<u32> {
    pattern(4 * count)
        .chunks(4)
        .map(|own| u32::from_le_bytes([own[0], own[1], own[2], own[3]]))
        .collect()
}

/// The bytes of words.
pub fn bytes_of(words: &[u32]) -> Vec<u8> {
    words.iter().flat_map(|word| word.to_le_bytes()).collect()
}

/// The running harness.
pub struct Planner {
    command: Vec<String>,
    child: Child,
    to: ChildStdin,
    from: ChildStdout,
}

impl Planner {
    /// Starts it by its command line.
    pub fn start(command: &[String]) -> Result<Planner> {
        let mut child = Command::new(&command[0])
            .args(&command[1..])
            .stdin(Stdio::piped())
            .stdout(Stdio::piped())
            .spawn()?;
        let to = child.stdin.take().expect("a pipe to the harness");
        let from = child.stdout.take().expect("a pipe from the harness");
        Ok(Planner {
            command: command.to_vec(),
            child,
            to,
            from,
        })
    }

    /// Asks it. A harness that ended instead of answering is started again.
    pub fn ask(&mut self, asked: &Asked) -> Result<Outcome> {
        let answer = self.ask_once(asked);
        if answer.is_err() {
            let _ = self.child.wait();
            *self = Planner::start(&self.command)?;
        }
        answer
    }

    fn ask_once(&mut self, asked: &Asked) -> Result<Outcome> {
        let (sheet, arcs, labels) = (&asked.sheet, bytes_of(&asked.arcs), bytes_of(&asked.labels));
        let mut head = vec![asked.op];
        head.extend(asked.request);
        head.extend(asked.label);
        for size in [
            sheet.len(),
            arcs.len(),
            labels.len(),
            asked.first,
            asked.second,
        ] {
            head.push(size as u32);
        }
        let mut frame = bytes_of(&head);
        frame.extend(sheet);
        frame.extend(arcs);
        frame.extend(labels);
        self.to.write_all(&frame)?;
        self.to.flush()?;
        let mut reply = [0; 14 * 4];
        self.from.read_exact(&mut reply)?;
        let words: Vec<u32> = reply
            .chunks(4)
            .map(|own| u32::from_le_bytes([own[0], own[1], own[2], own[3]]))
            .collect();
        let (mut first, mut second) = (vec![0; asked.first], vec![0; asked.second]);
        self.from.read_exact(&mut first)?;
        self.from.read_exact(&mut second)?;
        Ok(Outcome {
            faults: words[0],
            answer: u64::from(words[1]) | u64::from(words[2]) << 32,
            request: words[3..11].try_into().expect("eight words"),
            costs: words[11..14].try_into().expect("three words"),
            first,
            second,
        })
    }
}

impl Drop for Planner {
    fn drop(&mut self) {
        let _ = self.child.kill();
        let _ = self.child.wait();
    }
}
