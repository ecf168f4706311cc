//! Tapes, and playing them.

use std::io::Write;
use std::mem;

use crate::bus::{Guard, LineBoard, Ram, Split};
use crate::exchange::{self, Cold, Live, Stop, SHEET};
use crate::processor::Cpu;

/// How much of a tape is played; bytes past this do not exist.
pub const TAPE: usize = 16_384;

/// The least size of a line buffer.
pub const LINES: usize = 512;

/// How much RAM a tape can load.
const MEMORY: usize = 32_768;

/// The memory of the program: guarded RAM below 32,768, a line board from there on.
pub type Memory = Split<Guard<Ram<Vec<u8>>>, LineBoard>;

pub fn memory() -> Memory {
    let at = MEMORY as u16;
    let ram = Ram { base: 0, bytes: vec![0; MEMORY] };
    let board = LineBoard { base: at, trunks: Default::default() };
    Split { at, low: Guard { first: 0, last: 255, below: ram }, high: board }
}

/// Loads bytes behind the guard, all or none.
pub fn load(memory: &mut Memory, address: u16, bytes: &[u8]) -> Result<(), Fault> {
    let from = usize::from(address);
    match memory.low.below.bytes.get_mut(from..from + bytes.len()) {
        Some(part) if !bytes.is_empty() => {
            part.copy_from_slice(bytes);
            Ok(())
        }
        _ => Err(Fault::Load),
    }
}

/// Why a record is refused, by its number.
#[derive(Clone, Copy, Debug, PartialEq, Eq)]
pub enum Fault {
    Sheet = 1,
    UnknownMark = 10,
    CutOff = 11,
    OutOfTurn = 12,
    Load = 13,
    Buffer = 14,
}

/// A fault, and where its record begins.
#[derive(Clone, Copy, Debug, PartialEq, Eq)]
pub struct Refusal {
    pub fault: Fault,
    pub offset: usize,
}

#[derive(Clone, Copy, Debug, PartialEq, Eq)]
enum Mark {
    Load,
    Go,
    Run,
    Ring,
    End,
}

/// A record; what LD loads is a part of the tape.
#[derive(Clone, Copy, Debug, PartialEq, Eq)]
enum Record<'t> {
    Load { address: u16, bytes: &'t [u8] },
    Go { pc: u16, return_pointer: u16 },
    Run { steps: u16 },
    Ring { vector: u8 },
    End,
}

impl Mark {
    /// The mark at the front of `tape`, or none where the tape ends before it does.
    fn of(tape: &[u8]) -> Result<Option<Self>, Fault> {
        match tape {
            [b'L', b'D', ..] => Ok(Some(Self::Load)),
            [b'G', b'O', ..] => Ok(Some(Self::Go)),
            [b'R', b'U', ..] => Ok(Some(Self::Run)),
            [b'R', b'I', ..] => Ok(Some(Self::Ring)),
            [b'E', b'N', ..] => Ok(Some(Self::End)),
            [_, _, ..] => Err(Fault::UnknownMark),
            _ => Ok(None),
        }
    }
}

impl<'t> Record<'t> {
    /// The record with `mark`, from the fields after it, and its length.
    fn of(mark: Mark, fields: &'t [u8]) -> Result<(Self, usize), Fault> {
        let pair = |low, high| u16::from_le_bytes([low, high]);
        match (mark, fields) {
            (Mark::Load, &[low, high, count, ref rest @ ..]) => {
                let bytes = rest.get(..count.into()).ok_or(Fault::CutOff)?;
                Ok((Self::Load { address: pair(low, high), bytes }, 5 + bytes.len()))
            }
            (Mark::Go, &[a, b, c, d, ..]) => Ok((Self::Go { pc: pair(a, b), return_pointer: pair(c, d) }, 6)),
            (Mark::Run, &[low, high, ..]) => Ok((Self::Run { steps: pair(low, high) }, 4)),
            (Mark::Ring, &[vector, ..]) => Ok((Self::Ring { vector }, 3)),
            (Mark::End, _) => Ok((Self::End, 2)),
            _ => Err(Fault::CutOff),
        }
    }
}

#[derive(Debug)]
enum Phase {
    Cold(Cold),
    Live(Live),
    /// After EN.
    Ended,
    /// After a refused record.
    Refused,
}

/// Plays a tape record by record.
#[derive(Debug)]
pub struct Player<'t> {
    tape: &'t [u8],
    place: usize,
    phase: Phase,
}

impl<'t> Player<'t> {
    pub fn new(tape: &'t [u8]) -> Self {
        Self { tape, place: 0, phase: Phase::Cold(Cold) }
    }

    /// Whether nothing is left to play.
    pub fn finished(&self) -> bool {
        match self.phase {
            Phase::Refused => true,
            Phase::Ended => self.place == self.tape.len(),
            Phase::Cold(_) | Phase::Live(_) => false,
        }
    }

    /// Plays one record and writes its lines to the front of `lines`. Answers how many bytes were written, and the record's refusal.
    pub fn play(&mut self, memory: &mut Memory, sheet: &mut [u8], lines: &mut [u8]) -> (usize, Result<(), Refusal>) {
        let offset = self.place;
        if lines.len() < LINES {
            return (0, Err(Refusal { fault: Fault::Buffer, offset }));
        }
        let size = lines.len();
        let mut rest = lines;
        let played = self.play_record(memory, sheet, &mut rest).map_err(|fault| {
            self.phase = Phase::Refused;
            writeln!(rest, "NO {} {}", fault as u8, offset).expect(FITS);
            Refusal { fault, offset }
        });
        (size - rest.len(), played)
    }

    fn play_record(&mut self, memory: &mut Memory, sheet: &mut [u8], lines: &mut &mut [u8]) -> Result<(), Fault> {
        if sheet.len() != SHEET {
            return Err(Fault::Sheet);
        }
        let tape = &self.tape[self.place..];
        let mark = match (Mark::of(tape)?, &self.phase) {
            (None, Phase::Cold(_) | Phase::Live(_)) => return Err(Fault::CutOff),
            (Some(mark @ (Mark::Load | Mark::Go)), Phase::Cold(_)) => mark,
            (Some(mark @ (Mark::Run | Mark::Ring | Mark::End)), Phase::Live(_)) => mark,
            _ => return Err(Fault::OutOfTurn),
        };
        let (record, length) = Record::of(mark, &tape[2..])?;
        self.phase = match (record, mem::replace(&mut self.phase, Phase::Refused)) {
            (Record::Load { address, bytes }, Phase::Cold(cold)) => {
                load(memory, address, bytes)?;
                Phase::Cold(cold)
            }
            (Record::Go { pc, return_pointer }, Phase::Cold(cold)) => Phase::Live(cold.go(pc, return_pointer)),
            (Record::Run { steps }, Phase::Live(mut live)) => {
                let run = live.run(steps, memory, sheet).map_err(|_| Fault::Sheet)?;
                write_run(lines, run, live.cpu().pc());
                Phase::Live(live)
            }
            (Record::Ring { vector }, Phase::Live(mut live)) => {
                let number = live.ring(vector, memory, sheet).map_or_else(|refusal| refusal.fault.number(), |()| 0);
                writeln!(lines, "RI {number} {:04X}", live.cpu().pc()).expect(FITS);
                Phase::Live(live)
            }
            (Record::End, Phase::Live(live)) => {
                write_read_out(lines, &live.end());
                Phase::Ended
            }
            _ => return Err(Fault::OutOfTurn),
        };
        self.place += length;
        Ok(())
    }
}

/// The lines of one record are shorter than the least buffer.
const FITS: &str = "a record's lines fit the line buffer";

fn write_run(lines: &mut impl Write, run: exchange::Run, pc: u16) {
    let done = run.done;
    match run.stop() {
        Stop::Done => writeln!(lines, "RU {done} S {pc:04X}"),
        Stop::Refused(refusal) => writeln!(lines, "RU {done} R {pc:04X} {}", refusal.fault.number()),
        Stop::Told(address) => writeln!(lines, "RU {done} T {pc:04X} {address:04X}"),
        Stop::Marred(mar) => writeln!(lines, "RU {done} M {pc:04X} {mar}"),
    }
    .expect(FITS);
}

fn write_read_out(lines: &mut impl Write, cpu: &Cpu) {
    let status = u8::from(cpu.status);
    writeln!(lines, "EN {:02o} {:02o} {:X} {status:02X}", cpu.arp(), cpu.drp(), cpu.e()).expect(FITS);
    for (row, registers) in cpu.registers.bytes().chunks(8).enumerate() {
        write!(lines, "R{row}0").expect(FITS);
        for byte in registers {
            write!(lines, " {byte:02X}").expect(FITS);
        }
        writeln!(lines).expect(FITS);
    }
}

/// All that a tape prints.
pub fn transcribe(tape: &[u8]) -> Vec<u8> {
    let tape = &tape[..tape.len().min(TAPE)];
    let (mut memory, mut sheet, mut lines) = (memory(), [0; SHEET], [0; LINES]);
    let mut player = Player::new(tape);
    let mut printed = Vec::new();
    while !player.finished() {
        let (written, _) = player.play(&mut memory, &mut sheet, &mut lines);
        printed.extend_from_slice(&lines[..written]);
    }
    printed
}

#[cfg(test)]
mod tests {
    use super::*;

    fn printed(tape: &[u8]) -> String {
        String::from_utf8(transcribe(tape)).unwrap()
    }

    const GO: &[u8] = b"GO\x00\x01\x00\x04";

    #[test]
    fn the_example() {
        let tape = [
            &b"LD\x08\x00\x02\x00\x02"[..],
            b"LD\x00\x01\x05\x66\xA9\x34\x12\x89",
            b"LD\x00\x02\x01\x9E",
            GO,
            b"RU\x02\x00RI\x08RU\x01\x00RU\x01\x00EN",
        ];
        let lines = "\
RU 2 S 0104
RI 0 0200
RU 1 S 0104
RU 1 S 0105
EN 00 46 0 08
R00 00 00 00 00 05 01 00 04
R10 00 00 00 00 00 00 00 00
R20 00 00 00 00 00 00 00 00
R30 00 00 00 00 00 00 00 00
R40 00 00 00 00 00 00 35 12
R50 00 00 00 00 00 00 00 00
R60 00 00 00 00 00 00 00 00
R70 00 00 00 00 00 00 00 00
";
        assert_eq!(printed(&tape.concat()), lines);
    }

    #[test]
    fn refused_records() {
        let cases: [(&[&[u8]], &str); 16] = [
            (&[], "NO 11 0\n"),
            (&[b"L"], "NO 11 0\n"),
            (&[b"ld"], "NO 10 0\n"),
            (&[b"LD\x00\x01\x02\x00"], "NO 11 0\n"),
            (&[b"LD\x00\x01\x00"], "NO 13 0\n"),
            (&[b"LD\xFF\x7F\x02\x00\x00"], "NO 13 0\n"),
            (&[b"LD\xFF\x7F\x01\x00"], "NO 11 6\n"),
            (&[b"LD\xFF\xFF\xFF"], "NO 11 0\n"),
            (&[b"RU"], "NO 12 0\n"),
            (&[b"EN"], "NO 12 0\n"),
            (&[GO, b"GO"], "NO 12 6\n"),
            (&[GO, b"LD"], "NO 12 6\n"),
            (&[GO, b"RU\x00"], "NO 11 6\n"),
            (&[GO, b"RI"], "NO 11 6\n"),
            (&[GO, b"RI\x01"], "RI 2 0100\nNO 11 9\n"),
            (&[GO], "NO 11 6\n"),
        ];
        for (records, lines) in cases {
            assert_eq!(printed(&records.concat()), lines, "{records:?}");
        }
    }

    #[test]
    fn bytes_after_the_end_are_a_record() {
        for (rest, line) in
            [(&b""[..], None), (b"E", Some("NO 12 8")), (b"EN", Some("NO 12 8")), (b"\0\0", Some("NO 10 8"))]
        {
            let lines = printed(&[GO, b"EN", rest].concat());
            assert_eq!(lines.lines().nth(9), line);
        }
    }

    #[test]
    fn lines_of_a_run() {
        // A record after GO at 00FF: one ARP, then D6; a vector whose handler changes E.
        let memory: &[u8] = b"LD\x08\x00\x02\x00\x02LD\x00\x01\x01\xD6LD\x00\x02\x02\x9C\x9EGO\xFF\x00\x00\x04";
        let cases: [(&[u8], &str); 6] = [
            (b"RU\x01\x00", "RU 1 S 0100"),
            (b"RU\xFF\xFF", "RU 1 R 0100 8"),
            (b"RI\x08RU\xFF\xFF", "RI 0 0200\nRU 2 M 00FF 67"),
            (b"RI\x08RI\x08", "RI 0 0200\nRI 3 0200"),
            (b"RI\x06", "RI 0 0000"),
            (b"RU\x00\x00", "RU 0 S 00FF"),
        ];
        for (records, lines) in cases {
            let all = printed(&[memory, records].concat());
            let offset = memory.len() + records.len();
            assert_eq!(all, format!("{lines}\nNO 11 {offset}\n"));
        }
    }

    #[test]
    fn nothing_past_the_tape_is_played() {
        let filler = b"LD\x00\x10\x0B\0\0\0\0\0\0\0\0\0\0\0".repeat(TAPE / 16 - 1);
        let tape = [&filler, &b"LD\x00\x10\x03\0\0\0"[..], GO, b"EN"].concat();
        assert_eq!(tape.len(), TAPE);
        assert!(printed(&tape).starts_with("EN 00 00 0 00\n"));
        assert_eq!(printed(&[&tape[..], b"xx"].concat()), printed(&tape));
        assert_eq!(printed(&[&filler, &b"LD\x00\x10\x04\0\0\0\0"[..], GO, b"EN"].concat()), "NO 11 16383\n");
    }

    #[test]
    fn play_answers_what_it_wrote() {
        let (mut memory, mut sheet, mut lines) = (memory(), [0; SHEET], [7; LINES + 1]);
        let mut player = Player::new(b"XX");
        let mut play = |sheet: &mut [u8], lines: &mut [u8]| player.play(&mut memory, sheet, lines);
        let refused = |fault| Err(Refusal { fault, offset: 0 });
        assert_eq!(play(&mut [], &mut lines[..LINES - 1]), (0, refused(Fault::Buffer)));
        assert_eq!(play(&mut [], &mut lines), (7, refused(Fault::Sheet)));
        assert_eq!(lines[..8], *b"NO 1 0\n\x07");
        assert_eq!(play(&mut sheet, &mut lines), (8, refused(Fault::UnknownMark)));
        assert_eq!(lines[..9], *b"NO 10 0\n\x07");
    }
}
