//! The specification's examples with the answers it gives, on both programs.

use crate::call::{ACCEPTED, After, Answer, Call};
use crate::{engine, second};
use compare::word::*;
use std::process::ExitCode;

/// What the specification says of a file: its number of rows, or its refusal; or, of a file and n
/// parties, whether they all get an answer when they count their inputs, or which refusal.
enum Expected {
    Rows(u32),
    Refused(u32, usize),
    For(u32),
    RefusedFor(u32, u32, usize),
}

use Expected::{For, Refused, RefusedFor, Rows};

struct Example {
    name: &'static str,
    words: Vec<u32>,
    expected: Expected,
}

pub fn run() -> ExitCode {
    let mut failed = 0;
    let mut passed = 0;
    for example in examples() {
        if example.holds() {
            passed += 1;
        } else {
            failed += 1;
        }
    }
    println!("{passed} passed, {failed} failed");
    if failed > 0 {
        ExitCode::FAILURE
    } else {
        ExitCode::SUCCESS
    }
}

impl Example {
    /// Whether both programs give the expected answer; says so where one does not.
    fn holds(&self) -> bool {
        let file = file(&self.words);
        let mut holds = true;
        for call in self.calls() {
            let answers = [
                ("second", second::run(&file, &call)),
                ("engine", engine::run(&file, &call)),
            ];
            for (program, after) in answers {
                if !self.is_expected(&after) {
                    println!("{}: {program} says {after} to {call}", self.name);
                    holds = false;
                }
            }
        }
        holds
    }

    /// Reading, or counting the inputs of each party.
    fn calls(&self) -> Vec<Call> {
        match self.expected {
            Rows(_) | Refused(..) => vec![Call::Read],
            For(n) | RefusedFor(n, ..) => {
                let parties = 0..n;
                parties.map(|party| Call::InputsOf { n, party }).collect()
            }
        }
    }

    fn is_expected(&self, after: &After) -> bool {
        match self.expected {
            Rows(rows) => after.answer == ACCEPTED && after.loan.numbers[3] == rows,
            For(_) => after.answer == ACCEPTED,
            Refused(number, place) | RefusedFor(_, number, place) => {
                after.answer == Answer { number, place }
            }
        }
    }
}

fn examples() -> Vec<Example> {
    [rows(), moduli(), constants(), limits(), orders(), seats()]
        .into_iter()
        .flatten()
        .map(|(name, words, expected)| Example {
            name,
            words,
            expected,
        })
        .collect()
}

type Line = (&'static str, Vec<u32>, Expected);

fn rows() -> Vec<Line> {
    vec![
        (
            "the price sheet's circuit",
            vec![
                HEAD,
                input(0, 5),
                input(1, 5),
                multiply(0, 1),
                output(2),
                END,
            ],
            Rows(10),
        ),
        (
            "the price sheet's circuit with a wire not made",
            vec![
                HEAD,
                input(0, 5),
                input(1, 5),
                multiply(0, 2),
                output(2),
                END,
            ],
            Refused(5, 3),
        ),
        (
            "multiply at 251",
            vec![
                HEAD,
                input(0, 251),
                input(1, 251),
                multiply(0, 1),
                output(2),
                END,
            ],
            Rows(502),
        ),
        (
            "square at 251",
            vec![HEAD, input(0, 251), multiply(0, 0), output(1), END],
            Rows(251),
        ),
        (
            "square at 3",
            vec![HEAD, input(0, 3), multiply(0, 0), output(1), END],
            Rows(3),
        ),
        (
            "a bit times itself",
            vec![HEAD, input(0, 2), multiply(0, 0), output(1), END],
            Rows(0),
        ),
        (
            "a bit times itself, and that times itself",
            vec![
                HEAD,
                input(0, 2),
                multiply(0, 0),
                multiply(1, 1),
                output(2),
                END,
            ],
            Rows(0),
        ),
        (
            "a bit times its copy",
            vec![
                HEAD,
                input(0, 2),
                multiply(0, 0),
                multiply(0, 1),
                output(2),
                END,
            ],
            Rows(4),
        ),
        (
            "select at 2",
            vec![
                HEAD,
                input(0, 2),
                input(1, 2),
                select(0),
                branches(0, 1),
                output(2),
                END,
            ],
            Rows(6),
        ),
        (
            "project from 2",
            vec![
                HEAD,
                input(0, 2),
                project(5, 0),
                entry(4),
                entry(0),
                output(1),
                END,
            ],
            Rows(2),
        ),
    ]
}

fn moduli() -> Vec<Line> {
    let with = |modulus: u32| vec![HEAD, input(0, modulus), output(0), END];
    vec![
        ("modulus 251", with(251), Rows(0)),
        ("modulus 2", with(2), Rows(0)),
        ("modulus 1", with(1), Refused(4, 1)),
        ("modulus 253", with(253), Refused(4, 1)),
        ("modulus 0", with(0), Refused(4, 1)),
        ("modulus 255", with(255), Refused(4, 1)),
    ]
}

fn constants() -> Vec<Line> {
    let with = |constant: u32| vec![HEAD, input(0, 251), scale(constant, 0), output(1), END];
    vec![
        ("constant 250 at 251", with(250), Rows(0)),
        ("constant 1 at 251", with(1), Rows(0)),
        ("constant 0 at 251", with(0), Refused(7, 2)),
        ("constant 251 at 251", with(251), Refused(7, 2)),
    ]
}

fn limits() -> Vec<Line> {
    let inputs = |count: usize| {
        let mut words = vec![HEAD];
        words.resize(1 + count, input(0, 2));
        words.extend([output(0), END]);
        words
    };
    let outputs = |count: usize| {
        let mut words = vec![HEAD, input(0, 2)];
        words.resize(2 + count, output(0));
        words.push(END);
        words
    };
    vec![
        ("1,024 wires", inputs(1024), Rows(0)),
        ("1,025 wires", inputs(1025), Refused(8, 1025)),
        ("256 outputs", outputs(256), Rows(0)),
        ("257 outputs", outputs(257), Refused(8, 258)),
        ("no output", outputs(0), Refused(9, 2)),
    ]
}

/// Files with several faults, of which the first by word and then by number is named.
fn orders() -> Vec<Line> {
    vec![
        ("no word", vec![], Refused(1, 0)),
        ("head with a bit set", vec![HEAD | 1, 0], Refused(1, 0)),
        ("second head", vec![HEAD, HEAD], Refused(3, 1)),
        (
            "second head with a bit set",
            vec![HEAD, HEAD | 1],
            Refused(2, 1),
        ),
        (
            "modulus before owner",
            vec![HEAD, input(8, 4)],
            Refused(4, 1),
        ),
        (
            "wire before modulus",
            vec![HEAD, input(0, 2), input(0, 3), add(0, 2)],
            Refused(5, 3),
        ),
        (
            "moduli differ",
            vec![HEAD, input(0, 2), input(0, 3), add(0, 1)],
            Refused(6, 3),
        ),
        (
            "output modulus before wire",
            vec![HEAD, input(0, 2), project(4, 1)],
            Refused(4, 2),
        ),
        (
            "end in a table",
            vec![HEAD, input(0, 2), project(2, 0), entry(0), END],
            Refused(3, 4),
        ),
        (
            "end after select",
            vec![HEAD, input(0, 2), select(0), END],
            Refused(3, 3),
        ),
        (
            "bit wire not of modulus 2",
            vec![HEAD, input(0, 3), select(0)],
            Refused(6, 2),
        ),
        (
            "own wire as a branch",
            vec![HEAD, input(0, 2), select(0), branches(1, 0)],
            Refused(5, 3),
        ),
        (
            "input after gate",
            vec![HEAD, input(0, 2), add(0, 0), input(0, 2)],
            Refused(3, 3),
        ),
        (
            "gate after output",
            vec![HEAD, input(0, 2), output(0), add(0, 0)],
            Refused(3, 3),
        ),
        (
            "words ran out in a table",
            vec![HEAD, input(0, 2), project(2, 0)],
            Refused(10, 3),
        ),
        (
            "no output, and a word after end",
            vec![HEAD, END, END],
            Refused(9, 1),
        ),
        (
            "a word after end",
            vec![HEAD, input(0, 2), output(0), END, 0],
            Refused(10, 4),
        ),
    ]
}

/// Outputs that name seats: which files are accepted, and for how many parties.
fn seats() -> Vec<Line> {
    let with = |outputs: &[u32]| [&[HEAD, input(0, 5), input(1, 5)], outputs, &[END]].concat();
    let two = |named: u32| with(&[output(1), named_output(named, 0)]);
    vec![
        ("all seats named", two(255), Rows(0)),
        ("a bit above the seats", two(256), Refused(2, 4)),
        ("the highest such bit", two(1 << 17), Refused(2, 4)),
        ("no seat named", two(0), For(2)),
        ("both seats of two named", two(3), For(2)),
        ("seat 2 of two named", two(4), RefusedFor(2, 28, 1)),
        ("seat 2 of three named", two(4), For(3)),
        ("seat 7 of seven named", two(0x81), RefusedFor(7, 28, 1)),
        ("all seats of eight named", two(255), For(8)),
        (
            "two outputs for strangers",
            with(&[named_output(8, 1), named_output(4, 0)]),
            RefusedFor(2, 28, 0),
        ),
        (
            "two outputs, the second for a stranger",
            with(&[named_output(4, 1), named_output(8, 0)]),
            RefusedFor(3, 28, 1),
        ),
        (
            "a stranger's input before an output for one",
            vec![HEAD, input(0, 2), input(4, 2), named_output(255, 0), END],
            RefusedFor(4, 13, 1),
        ),
        (
            "a wire not made, for all seats",
            with(&[named_output(255, 2)]),
            Refused(5, 3),
        ),
    ]
}
