//! What every layer is written with: a call, an input of it, what the originals say, and the comparison.

/// The parameters of a call, in the order of the C interface. An answer array and the result are not among them.
#[derive(Clone, Copy, Debug, PartialEq, Eq)]
pub enum Part {
    /// A slice that is read: the next of `Input::bytes`.
    Bytes,
    /// A number, signed ones as their 64-bit pattern: the next of `Input::numbers`.
    Number,
    /// A slice that may be written: the next of `Input::outputs`.
    Output,
}

pub const NUMBERS: usize = 4;
pub const SLICES: usize = 3;
pub const OUTPUTS: usize = 2;
pub const VALUES: usize = 6;

/// One call of the C interface.
pub struct Call {
    pub name: &'static str,
    pub parts: &'static [Part],
    /// The length of its answer array; 1 for a call that answers directly.
    pub values: usize,
    /// The answers that document 01 lists for it, 0 for accepted. A run in which one of them never came has failed.
    pub answers: &'static [u32],
    /// What is to come: the originals' answer, or document 01's where the originals have none.
    pub rust: fn(&Input) -> Expected,
    /// The proved function, called as C would.
    pub ours: fn(&mut Lent) -> u32,
}

impl Call {
    /// How many of its parameters are slices of this kind.
    pub fn slices(&self, kind: Part) -> usize {
        self.parts.iter().filter(|part| **part == kind).count()
    }

    /// The answer array after the call, and what lies behind it.
    fn answer_due(&self, expected: &Expected) -> [u64; VALUES + 2] {
        let values = if expected.number == 0 { self.values } else { 0 };
        std::array::from_fn(|i| if i < values { expected.values[i] } else { UNTOUCHED })
    }
}

/// A layer: its calls, in the order of their numbers in the recorded answers, from 1 on.
pub struct Layer {
    pub name: &'static str,
    pub calls: &'static [Call],
    /// Tries the calls on what this layer's limits suggest.
    pub compare: fn(&mut Comparison),
    /// The fixed inputs whose answers are recorded.
    pub sample: fn(&mut dyn FnMut(&'static str, &Input)),
}

/// The arguments of one call. Unused places are 0 and empty.
#[derive(Clone, Copy, Default)]
pub struct Input<'a> {
    pub numbers: [u64; NUMBERS],
    pub bytes: [&'a [u8]; SLICES],
    /// What the outputs hold before the call.
    pub outputs: [&'a [u8]; OUTPUTS],
}

/// The same arguments as the proved function gets them: copies, with the answer array.
pub struct Lent<'a> {
    pub numbers: [u64; NUMBERS],
    pub bytes: [&'a [u8]; SLICES],
    pub outputs: [&'a mut [u8]; OUTPUTS],
    answer: &'a mut [u64],
}

impl Lent<'_> {
    /// The answer array. What lies behind it is watched too.
    pub fn answer<const N: usize>(&mut self) -> *mut [u64; N] {
        assert!(N <= VALUES);
        self.answer.as_mut_ptr().cast()
    }

    /// Takes the result of a call that answers directly for its one value, and is accepted.
    pub fn direct(&mut self, result: u64) -> u32 {
        self.answer[0] = result;
        0
    }
}

/// What is to come of a call.
#[derive(Clone, Debug, PartialEq)]
pub struct Expected {
    /// 0, or the refusal.
    pub number: u32,
    pub values: [u64; VALUES],
    /// The bytes from the start of each output; the rest of it is as it was.
    pub written: [Vec<u8>; OUTPUTS],
    /// Whether the originals panicked, so that document 01 decides alone.
    pub outside: bool,
}

impl Expected {
    pub fn accepted(values: &[u64]) -> Expected {
        let mut all = [0; VALUES];
        all[..values.len()].copy_from_slice(values);
        Expected { number: 0, values: all, written: Default::default(), outside: false }
    }

    pub fn refused(number: u32) -> Expected {
        Expected { number, values: [0; VALUES], written: Default::default(), outside: false }
    }
}

/// The originals' reply as what is to come. `outside` is document 01's refusal where they panic; a layer that gives none says that they never do.
pub fn expect<T>(reply: oracle::Reply<T>, outside: Option<u32>, accepted: impl FnOnce(T) -> Expected) -> Expected {
    match reply {
        oracle::Reply::Accepted(value) => accepted(value),
        oracle::Reply::Refused(number) => Expected::refused(number),
        oracle::Reply::Outside => {
            let number = outside.expect("the originals do not panic in this call");
            Expected { outside: true, ..Expected::refused(number) }
        }
    }
}

/// An accepted call that writes `bytes` to the first output and answers `values`, or refusal 16 where they do not fit.
pub fn expect_written(bytes: Vec<u8>, input: &Input, values: &[u64]) -> Expected {
    if bytes.len() > input.outputs[0].len() {
        return Expected::refused(16);
    }
    Expected { written: [bytes, Vec::new()], ..Expected::accepted(values) }
}

/// Bytes lent to the proved function, between two strips that must stay as they are.
struct Watched(Vec<u8>);

const STRIP: [u8; 16] = [0xC5; 16];

impl Default for Watched {
    fn default() -> Watched {
        Watched([STRIP, STRIP].concat())
    }
}

impl Watched {
    fn hold(&mut self, bytes: &[u8]) {
        // Strips that were seen to stand after the last call stand where they are to, if the length is the last one's.
        if self.0.len() == bytes.len() + 2 * STRIP.len() {
            self.inside().copy_from_slice(bytes);
        } else {
            self.0.clear();
            self.0.extend_from_slice(&STRIP);
            self.0.extend_from_slice(bytes);
            self.0.extend_from_slice(&STRIP);
        }
    }

    fn inside(&mut self) -> &mut [u8] {
        let end = self.0.len() - STRIP.len();
        &mut self.0[STRIP.len()..end]
    }

    fn strips_stand(&self) -> bool {
        self.0.starts_with(&STRIP) && self.0.ends_with(&STRIP)
    }
}

/// Behind the answer array and, before the call, in it.
const UNTOUCHED: u64 = 0xA5A5_5A5A_C3C3_3C3C;

/// A run of comparisons.
pub struct Comparison {
    pub random: crate::random::Random,
    pub scale: u64,
    rows: Vec<Row>,
    passed: u64,
    failed: u64,
    bytes: [Watched; SLICES],
    outputs: [Watched; OUTPUTS],
}

/// A call, and what came of it.
struct Row {
    call: &'static Call,
    /// How many slices it is lent for reading, and for writing.
    bytes: usize,
    outputs: usize,
    /// Inputs by the answer that was to come.
    counts: [u64; 32],
    /// Inputs at which the originals panicked.
    outside: u64,
    /// Inputs at which the two sides differ.
    differences: u64,
}

/// After so many differences of a call the rest is only counted.
const SHOWN: u64 = 4;

impl Comparison {
    pub fn new(seed: u64, scale: u64, layers: &[&'static Layer]) -> Comparison {
        let row = |call: &'static Call| Row {
            call,
            bytes: call.slices(Part::Bytes),
            outputs: call.slices(Part::Output),
            counts: [0; 32],
            outside: 0,
            differences: 0,
        };
        Comparison {
            random: crate::random::Random::new(seed),
            scale,
            rows: layers.iter().flat_map(|layer| layer.calls).map(row).collect(),
            passed: 0,
            failed: 0,
            bytes: Default::default(),
            outputs: Default::default(),
        }
    }

    /// The place of a call, to be looked up once and used often.
    pub fn place(&self, name: &str) -> usize {
        self.rows.iter().position(|row| row.call.name == name).unwrap_or_else(|| panic!("no call {name}"))
    }

    /// Whether this run is more than the one of the tests.
    pub fn long(&self) -> bool {
        self.scale > 1
    }

    /// Whether this run tries what takes hours too.
    pub fn longest(&self) -> bool {
        self.scale >= 100
    }

    /// Runs both sides on `input` and compares all there is to see.
    pub fn check(&mut self, place: usize, input: &Input) {
        self.answered(place, input);
    }

    /// The same. Answers the values that were to come, where the call was to be accepted.
    pub fn answered(&mut self, place: usize, input: &Input) -> Option<[u64; VALUES]> {
        let row = &mut self.rows[place];
        let call = row.call;
        let expected = (call.rust)(input);
        row.outside += u64::from(expected.outside);
        if !call.answers.contains(&expected.number) {
            self.differs(place, input, &expected, "document 01 does not list this answer for this call");
            return None;
        }
        row.counts[expected.number as usize] += 1;

        let (bytes, outputs) = (row.bytes, row.outputs);
        self.bytes.iter_mut().zip(input.bytes).take(bytes).for_each(|(watched, bytes)| watched.hold(bytes));
        self.outputs.iter_mut().zip(input.outputs).take(outputs).for_each(|(watched, bytes)| watched.hold(bytes));
        let mut answer = [UNTOUCHED; VALUES + 2];
        let number = {
            let [b0, b1, b2] = &mut self.bytes;
            let [o0, o1] = &mut self.outputs;
            (call.ours)(&mut Lent {
                numbers: input.numbers,
                bytes: [b0.inside(), b1.inside(), b2.inside()],
                outputs: [o0.inside(), o1.inside()],
                answer: &mut answer,
            })
        };
        if number == expected.number && answer == call.answer_due(&expected) && self.lent_stands(place, input, &expected) {
            self.passed += 1;
        } else {
            let complaint = self.complaint(place, input, &expected, number, &answer);
            self.differs(place, input, &expected, &complaint);
            // Strips may have been written over.
            (self.bytes, self.outputs) = Default::default();
        }
        (expected.number == 0).then_some(expected.values)
    }

    /// Whether what was lent for reading, what was lent for writing and what lies beside them is what it is to be.
    fn lent_stands(&mut self, place: usize, input: &Input, expected: &Expected) -> bool {
        let Row { bytes, outputs, .. } = self.rows[place];
        let mut read = self.bytes.iter_mut().zip(input.bytes).take(bytes);
        let mut written = self.outputs.iter_mut().zip(input.outputs).zip(&expected.written).take(outputs);
        read.all(|(watched, before)| watched.strips_stand() && watched.inside() == before)
            && written.all(|((watched, before), written)| {
                let end = written.len();
                watched.strips_stand() && watched.inside()[..end] == written[..] && watched.inside()[end..] == before[end..]
            })
    }

    /// What is wrong with an answer in which something is.
    #[cold]
    fn complaint(&mut self, place: usize, input: &Input, expected: &Expected, number: u32, answer: &[u64; VALUES + 2]) -> String {
        let Row { call, bytes, .. } = self.rows[place];
        let values = if number == 0 { call.values } else { 0 };
        let read = self.bytes.iter_mut().zip(input.bytes).take(bytes);
        if number != expected.number {
            format!("answered {number}")
        } else if answer[..values] != expected.values[..values] {
            format!("answered the values {:x?}", &answer[..values])
        } else if *answer != call.answer_due(expected) {
            format!("wrote answers beyond its own: {:x?}", &answer[values..])
        } else if read.map(|(watched, before)| watched.inside() == before && watched.strips_stand()).any(|stands| !stands) {
            "changed bytes that it was lent for reading, or bytes beside them".into()
        } else if !self.outputs.iter().all(Watched::strips_stand) {
            "wrote outside an output".into()
        } else {
            let after: Vec<String> = self.outputs.iter_mut().map(|watched| hex(watched.inside())).collect();
            format!("left outputs {after:?}")
        }
    }

    #[cold]
    fn differs(&mut self, place: usize, input: &Input, expected: &Expected, complaint: &str) {
        self.failed += 1;
        let Row { call, differences, .. } = &mut self.rows[place];
        *differences += 1;
        if *differences <= SHOWN {
            let bytes: Vec<String> = input.bytes.iter().map(|bytes| hex(bytes)).collect();
            let outputs: Vec<String> = input.outputs.iter().map(|bytes| hex(bytes)).collect();
            println!("DIFFERS {}: {complaint}", call.name);
            println!("    numbers {:x?} bytes {bytes:?} outputs {outputs:?}", input.numbers);
            println!(
                "    expected {} values {:x?} written {}",
                expected.number,
                &expected.values[..call.values],
                hex(&expected.written[0])
            );
        }
    }

    /// Prints the table of inputs by call and answer, and the verdict. True where all agreed and every listed answer came.
    pub fn finish(mut self) -> bool {
        println!("{:<34} {:>12}  by answer", "call", "inputs");
        for Row { call, counts, outside, differences, .. } in &self.rows {
            let mut row = format!("{:<34} {:>12} ", call.name, counts.iter().sum::<u64>());
            for number in call.answers {
                let name = if *number == 0 { "accepted".to_string() } else { number.to_string() };
                row += &format!(" {name}: {}", counts[*number as usize]);
            }
            if *outside > 0 {
                row += &format!(" (outside the originals' domain: {outside})");
            }
            if *differences > 0 {
                row += &format!(" DIFFERENCES: {differences}");
            }
            println!("{row}");
            for number in call.answers.iter().filter(|number| counts[**number as usize] == 0) {
                println!("NEVER REACHED {}: {number}", call.name);
                self.failed += 1;
            }
        }
        println!("differential: {} passed, {} failed", self.passed, self.failed);
        self.failed == 0
    }
}

fn hex(bytes: &[u8]) -> String {
    const MOST: usize = 64;
    let shown: String = bytes.iter().take(MOST).map(|byte| format!("{byte:02x}")).collect();
    if bytes.len() > MOST { format!("{shown}.. ({} bytes)", bytes.len()) } else { shown }
}

#[cfg(test)]
mod tests {
    use super::*;

    /// Refuses bytes that start with 0 by 7; else answers their sum, and puts them into the output.
    fn rust(input: &Input) -> Expected {
        match input.bytes[0] {
            [0, ..] => Expected::refused(7),
            bytes => expect_written(bytes.to_vec(), input, &[bytes.iter().map(|byte| u64::from(*byte)).sum()]),
        }
    }

    fn ours(lent: &mut Lent) -> u32 {
        let bytes = lent.bytes[0];
        if bytes[0] == 0 {
            return 7;
        }
        lent.outputs[0][..bytes.len()].copy_from_slice(bytes);
        lent.direct(bytes.iter().map(|byte| u64::from(*byte)).sum())
    }

    /// Compares two accepted inputs and two refused ones: how many failed, and whether the run says that all is well.
    fn tried(answers: &'static [u32], ours: fn(&mut Lent) -> u32) -> (u64, bool) {
        let call = Call { name: "sum", parts: &[Part::Bytes, Part::Output], values: 1, answers, rust, ours };
        let layer = Layer { name: "sums", calls: Box::leak(Box::new([call])), compare: |_| {}, sample: |_| {} };
        let mut run = Comparison::new(1, 1, &[Box::leak(Box::new(layer))]);
        for bytes in [[3, 4, 5], [0, 4, 5], [3, 4, 6], [0, 4, 6]] {
            run.check(0, &Input { bytes: [&bytes, &[], &[]], outputs: [&[9; 5], &[]], ..Input::default() });
        }
        assert_eq!(run.passed + run.failed, 4);
        (run.failed, run.finish())
    }

    #[test]
    fn two_sides_that_agree() {
        assert_eq!(tried(&[0, 7], ours), (0, true));
    }

    #[test]
    fn an_answer_that_never_comes_fails_the_run_and_so_does_one_that_is_not_listed() {
        assert_eq!(tried(&[0, 7, 8], ours), (0, false));
        assert_eq!(tried(&[0], ours), (2, false));
    }

    /// What went wrong with one input is not counted again with the next.
    #[test]
    fn each_slip_is_seen_where_it_is_made() {
        /// Turns bits of the byte at some distance from the start of a slice.
        fn turn(slice: &[u8], at: isize) {
            // SAFETY: inside the buffer that holds the slice and the strips beside it.
            unsafe { *slice.as_ptr().cast_mut().offset(at) ^= 0x21 };
        }
        let slips: [(u64, fn(&mut Lent) -> u32); 12] = [
            // The number.
            (2, |lent| ours(lent).max(7)),
            (2, |lent| ours(lent).min(6)),
            // The value; an answer of a refused call; a word behind the answers.
            (1, |lent| if ours(lent) == 0 && lent.bytes[0][2] == 5 { lent.direct(11) } else { ours(lent) }),
            (2, |lent| match ours(lent) {
                7 => 7 + lent.direct(0),
                number => number,
            }),
            (4, |lent| {
                lent.answer[1] = 0;
                ours(lent)
            }),
            // A byte that was lent for reading; one before it, one behind it.
            (4, |lent| {
                let number = ours(lent);
                turn(lent.bytes[0], 1);
                number
            }),
            (1, |lent| {
                let number = ours(lent);
                if lent.bytes[0][..] == [3, 4, 5] {
                    turn(lent.bytes[0], -1);
                }
                number
            }),
            (1, |lent| {
                let number = ours(lent);
                if lent.bytes[0][..] == [0, 4, 5] {
                    turn(lent.bytes[0], 3);
                }
                number
            }),
            // A byte of the output that is the answer's, one that is not, and those of a refused call.
            (2, |lent| {
                let number = ours(lent);
                if number == 0 {
                    lent.outputs[0][2] = 7;
                }
                number
            }),
            (4, |lent| {
                let number = ours(lent);
                lent.outputs[0][3] = 8;
                number
            }),
            (2, |lent| {
                let number = ours(lent);
                if number == 7 {
                    lent.outputs[0][0] = 0;
                }
                number
            }),
            // One beside it.
            (1, |lent| {
                let number = ours(lent);
                if lent.bytes[0][..] == [3, 4, 5] {
                    turn(lent.outputs[0], 5);
                }
                number
            }),
        ];
        for (place, (failed, slip)) in slips.into_iter().enumerate() {
            assert_eq!(tried(&[0, 7], slip), (failed, false), "slip {place}");
        }
    }
}
