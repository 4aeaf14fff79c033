//! The three sides that are measured, and the calls that are put to them.

use crate::handwritten::{self, Set, Unlabelled};
use crate::proved;

#[derive(Clone, Copy, PartialEq)]
pub enum Side {
    Proved,
    Handwritten,
    /// The hand-written runner with no labels.
    Plain,
}

#[derive(Clone, Copy)]
pub enum Call {
    Run { budget: u32 },
    Load,
    Write,
}

/// Memory to lend.
#[derive(Clone, PartialEq)]
pub struct Memory {
    pub amounts: Vec<i32>,
    pub presence: Vec<u64>,
    pub labels: Vec<u64>,
    pub trace: Vec<u8>,
    pub out: Vec<u8>,
}

impl Memory {
    /// As much as every call accepts.
    pub fn new() -> Memory {
        Memory {
            amounts: vec![0; 512],
            presence: vec![0; 8],
            labels: vec![0; 4_096],
            trace: vec![0; 65_536],
            out: vec![0; 60_000],
        }
    }
}

/// What a call answers: number, at, and cost and bytes of a run or the length
/// that was written.
pub type Answer = [u32; 4];

impl Side {
    pub fn call(self, call: Call, file: &[u8], memory: &mut Memory) -> Answer {
        match call {
            Call::Run { budget } => self.run(file, budget, memory),
            Call::Load => self.load(file, memory),
            Call::Write => self.write(file, memory),
        }
    }

    fn run(self, file: &[u8], budget: u32, memory: &mut Memory) -> Answer {
        let run = match self {
            Side::Proved => proved::run,
            Side::Handwritten => handwritten::run::<Set>,
            Side::Plain => handwritten::run::<Unlabelled>,
        };
        let Memory {
            amounts,
            presence,
            labels,
            trace,
            ..
        } = memory;
        let ran = run(file, budget, amounts, presence, labels, trace);
        [ran.number, ran.at, ran.cost, ran.bytes]
    }

    fn load(self, file: &[u8], memory: &mut Memory) -> Answer {
        let load = match self {
            Side::Proved => proved::load,
            Side::Handwritten => handwritten::load::<Set>,
            Side::Plain => handwritten::load::<Unlabelled>,
        };
        let Memory {
            amounts,
            presence,
            labels,
            ..
        } = memory;
        let answered = load(file, amounts, presence, labels);
        [answered.number, answered.at, answered.length, 0]
    }

    /// A writer writes labels always, so the hand-written one serves both sides.
    fn write(self, file: &[u8], memory: &mut Memory) -> Answer {
        let write = match self {
            Side::Proved => proved::write,
            Side::Handwritten | Side::Plain => handwritten::write,
        };
        let Memory {
            amounts,
            presence,
            labels,
            out,
            ..
        } = memory;
        let answered = write(file, amounts, presence, labels, out);
        [answered.number, answered.at, answered.length, 0]
    }
}
