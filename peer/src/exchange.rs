//! Exchanges, cold and live: step, ring and run, the sheet of stains, and visits.

use crate::bus::Bus;
use crate::processor::{self, Cpu, Port};

/// The size of a sheet: one bit for each address.
pub const SHEET: usize = 8192;

/// The numbers of the mars that are no registers; those have 0 to 63.
const MAR_ARP: u8 = 64;
const MAR_DRP: u8 = 65;
const MAR_STATUS: u8 = 66;
const MAR_E: u8 = 67;

/// The stains: addresses that an interrupt handler was the last to store to.
type Sheet = [u8; SHEET];

fn as_sheet(bytes: &mut [u8]) -> Result<&mut Sheet, Fault> {
    bytes.try_into().map_err(|_| Fault::Sheet)
}

/// The byte of the sheet with an address's stain, and its bit there.
fn stain(address: u16) -> (usize, u8) {
    (usize::from(address / 8), 1 << (address % 8))
}

/// Why a step or ring is refused.
#[derive(Clone, Copy, Debug, PartialEq, Eq)]
pub enum Fault {
    /// The sheet has another size than `SHEET`.
    Sheet,
    OddVector,
    VisitOpen,
    Instruction(processor::Fault),
}

impl From<processor::Fault> for Fault {
    fn from(fault: processor::Fault) -> Self {
        Self::Instruction(fault)
    }
}

impl Fault {
    pub fn number(self) -> u8 {
        match self {
            Self::Sheet => 1,
            Self::OddVector => 2,
            Self::VisitOpen => 3,
            Self::Instruction(processor::Fault::Bus { refusal, .. }) => refusal.cause as u8,
            Self::Instruction(processor::Fault::Illegal(_)) => 8,
            Self::Instruction(processor::Fault::NotDecimal(_)) => 9,
        }
    }
}

/// A fault, and PC where it came up.
#[derive(Clone, Copy, Debug, PartialEq, Eq)]
pub struct Refusal {
    pub fault: Fault,
    pub place: u16,
}

/// A step that was refused, and the stain that it told.
#[derive(Clone, Copy, Debug, PartialEq, Eq)]
pub struct RefusedStep {
    pub refusal: Refusal,
    pub told: Option<u16>,
}

/// A step that was done.
#[derive(Clone, Copy, Debug, PartialEq, Eq)]
pub struct Step {
    /// PC before the step.
    pub place: u16,
    /// The length of the instruction.
    pub length: u8,
    /// The first stained address read, outside a visit.
    pub told: Option<u16>,
    /// The end of a visit, where this step ended one.
    pub end: Option<End>,
}

/// What a step answers.
pub type Answer = Result<Step, RefusedStep>;

/// Whether a run goes on after a step that answers so.
fn goes_on(answer: &Answer) -> bool {
    matches!(answer, Ok(Step { told: None, end: None | Some(End::Clean), .. }))
}

/// How a visit ended.
#[derive(Clone, Copy, Debug, PartialEq, Eq)]
pub enum End {
    Clean,
    /// The number of the first part of the processor that differs from what it was before the ring.
    Marred(u8),
}

/// What a run did: the steps done, and what the last one tried answered. It was refused, told a stain or ended a visit marred where
/// the run stopped early, and otherwise did none of these.
#[derive(Clone, Copy, Debug, PartialEq, Eq)]
pub struct Run {
    pub done: u16,
    pub last: Option<Answer>,
}

/// Why a run ended.
#[derive(Clone, Copy, Debug, PartialEq, Eq)]
pub enum Stop {
    /// All its steps are done.
    Done,
    Refused(Refusal),
    Told(u16),
    Marred(u8),
}

impl Run {
    pub fn stop(&self) -> Stop {
        match self.last {
            Some(Err(refused)) => Stop::Refused(refused.refusal),
            Some(Ok(Step { told: Some(address), .. })) => Stop::Told(address),
            Some(Ok(Step { end: Some(End::Marred(mar)), .. })) => Stop::Marred(mar),
            _ => Stop::Done,
        }
    }
}

/// The bus as a step outside visits has it: reads tell the first stain, stores clear stains.
struct Outside<'a, B> {
    bus: &'a mut B,
    sheet: &'a mut Sheet,
    length: u8,
    told: Option<u16>,
}

impl<B> Outside<'_, B> {
    #[cold]
    fn tell(&mut self, address: u16) {
        self.told = self.told.or(Some(address));
    }
}

/// The bus as rings and steps within a visit have it: stores set stains.
struct Within<'a, B> {
    bus: &'a mut B,
    sheet: &'a mut Sheet,
    length: u8,
    returned: bool,
}

fn at<T>(address: u16, answer: Result<T, crate::bus::Refusal>) -> Result<T, processor::Fault> {
    answer.map_err(|refusal| processor::Fault::Bus { refusal, address })
}

impl<B: Bus> Port for Outside<'_, B> {
    #[inline]
    fn read(&mut self, address: u16) -> Result<u8, processor::Fault> {
        let (byte, bit) = stain(address);
        if self.sheet[byte] & bit != 0 {
            self.tell(address);
        }
        at(address, self.bus.read(address))
    }

    #[inline]
    fn inquire(&self, address: u16) -> Result<(), processor::Fault> {
        at(address, self.bus.inquire(address))
    }

    #[inline]
    fn store(&mut self, address: u16, data: u8) -> Result<(), processor::Fault> {
        at(address, self.bus.store(address, data))?;
        let (byte, bit) = stain(address);
        self.sheet[byte] &= !bit;
        Ok(())
    }

    #[inline]
    fn passed(&mut self, length: u8) {
        self.length = length;
    }

    #[inline]
    fn returned(&mut self) {}
}

impl<B: Bus> Port for Within<'_, B> {
    #[inline]
    fn read(&mut self, address: u16) -> Result<u8, processor::Fault> {
        at(address, self.bus.read(address))
    }

    #[inline]
    fn inquire(&self, address: u16) -> Result<(), processor::Fault> {
        at(address, self.bus.inquire(address))
    }

    #[inline]
    fn store(&mut self, address: u16, data: u8) -> Result<(), processor::Fault> {
        at(address, self.bus.store(address, data))?;
        let (byte, bit) = stain(address);
        self.sheet[byte] |= bit;
        Ok(())
    }

    #[inline]
    fn passed(&mut self, length: u8) {
        self.length = length;
    }

    #[inline]
    fn returned(&mut self) {
        self.returned = true;
    }
}

/// The number of the first part in which two states differ.
fn mar(before: &Cpu, after: &Cpu) -> Option<u8> {
    let register =
        before.registers.bytes().iter().zip(after.registers.bytes()).position(|(before, after)| before != after);
    let rest = [
        (before.arp() != after.arp(), MAR_ARP),
        (before.drp() != after.drp(), MAR_DRP),
        (before.status != after.status, MAR_STATUS),
        (before.e() != after.e(), MAR_E),
    ];
    let others = || rest.iter().find(|(differs, _)| *differs).map(|&(_, number)| number);
    register.map(|register| register as u8).or_else(others)
}

/// An exchange before GO. Its memory is loaded by whoever holds it.
#[derive(Debug, Default)]
pub struct Cold;

impl Cold {
    pub fn go(self, pc: u16, return_pointer: u16) -> Live {
        Live { cpu: Cpu::new(pc, return_pointer), visit: None }
    }
}

/// An exchange in service.
#[derive(Clone, Debug)]
pub struct Live {
    cpu: Cpu,
    /// While a visit is open, the processor before its ring.
    visit: Option<Cpu>,
}

impl Live {
    pub fn cpu(&self) -> &Cpu {
        &self.cpu
    }

    /// Ends the exchange and reads it out.
    pub fn end(self) -> Cpu {
        self.cpu
    }

    /// Carries out the instruction at PC.
    pub fn step<B: Bus>(&mut self, bus: &mut B, sheet: &mut [u8]) -> Answer {
        match as_sheet(sheet) {
            Ok(sheet) => self.step_on(bus, sheet, |answer| answer),
            Err(fault) => Err(RefusedStep { refusal: self.refusal(fault), told: None }),
        }
    }

    /// Up to `steps` steps, until one is refused, tells a stain or ends a visit marred.
    pub fn run<B: Bus>(&mut self, steps: u16, bus: &mut B, sheet: &mut [u8]) -> Result<Run, Refusal> {
        let sheet = as_sheet(sheet).map_err(|fault| self.refusal(fault))?;
        let mut run = Run { done: 0, last: None };
        while run.last.is_none() && run.done < steps {
            let is_last = run.done + 1 == steps;
            run.last = self.step_on(bus, sheet, |answer| (is_last || !goes_on(&answer)).then_some(answer));
            run.done += u16::from(!matches!(run.last, Some(Err(_))));
        }
        Ok(run)
    }

    /// Interrupts through the pair at `vector`.
    pub fn ring<B: Bus>(&mut self, vector: u8, bus: &mut B, sheet: &mut [u8]) -> Result<(), Refusal> {
        self.try_ring(vector, bus, sheet).map_err(|fault| self.refusal(fault))
    }

    fn refusal(&self, fault: Fault) -> Refusal {
        Refusal { fault, place: self.cpu.pc() }
    }

    fn try_ring<B: Bus>(&mut self, vector: u8, bus: &mut B, sheet: &mut [u8]) -> Result<(), Fault> {
        let sheet = as_sheet(sheet)?;
        if vector % 2 == 1 {
            return Err(Fault::OddVector);
        }
        if self.visit.is_some() {
            return Err(Fault::VisitOpen);
        }
        let mut port = Within { bus, sheet, length: 0, returned: false };
        let handler = port.read_pair(vector.into())?;
        let before = self.cpu.clone();
        self.cpu.enter(handler, &mut port)?;
        self.visit = Some(before);
        Ok(())
    }

    /// Carries out the instruction at PC and hands what it answers to `then`; so a run need not keep each step's answer.
    #[inline(always)]
    fn step_on<B: Bus, T>(&mut self, bus: &mut B, sheet: &mut Sheet, then: impl FnOnce(Answer) -> T) -> T {
        let place = self.cpu.pc();
        let refusal = |fault: processor::Fault| Refusal { fault: fault.into(), place };
        if self.visit.is_none() {
            let mut port = Outside { bus, sheet, length: 0, told: None };
            let answer = self.cpu.execute(&mut port);
            let Outside { length, told, .. } = port;
            match answer {
                Ok(()) => then(Ok(Step { place, length, told, end: None })),
                Err(fault) => then(Err(RefusedStep { refusal: refusal(fault), told })),
            }
        } else {
            let mut port = Within { bus, sheet, length: 0, returned: false };
            let answer = self.cpu.execute(&mut port);
            let Within { length, returned, .. } = port;
            match answer {
                Ok(()) => {
                    let end = if returned { self.returned() } else { None };
                    then(Ok(Step { place, length, told: None, end }))
                }
                Err(fault) => then(Err(RefusedStep { refusal: refusal(fault), told: None })),
            }
        }
    }

    /// Ends the open visit if the RTN just done has brought the return pointer back to where the ring found it.
    fn returned(&mut self) -> Option<End> {
        let before = self.visit.as_ref().filter(|before| before.return_pointer() == self.cpu.return_pointer())?;
        let end = mar(before, &self.cpu).map_or(End::Clean, End::Marred);
        self.visit = None;
        Some(end)
    }
}

#[cfg(test)]
mod tests {
    use super::*;
    use crate::bus::{self, Cause, Guard, Ram};

    type Memory = Guard<Ram<Vec<u8>>>;

    const CODE: u16 = 0x0100;
    const STACK: u16 = 0x0400;
    const HANDLER: u16 = 0x0200;

    /// An exchange at `code`, a vector 8 that leads to `handler`, and a blank sheet.
    fn exchange(code: &[u8], handler: &[u8]) -> (Live, Memory, Vec<u8>) {
        let mut bytes = vec![0; 0x1000];
        bytes[8..10].copy_from_slice(&HANDLER.to_le_bytes());
        bytes[usize::from(CODE)..][..code.len()].copy_from_slice(code);
        bytes[usize::from(HANDLER)..][..handler.len()].copy_from_slice(handler);
        let memory = Guard { first: 0, last: 255, below: Ram { base: 0, bytes } };
        (Cold.go(CODE, STACK), memory, vec![0; SHEET])
    }

    fn set_stain(sheet: &mut [u8], address: u16) {
        let (byte, bit) = stain(address);
        sheet[byte] |= bit;
    }

    /// The stained addresses.
    fn stains(sheet: &[u8]) -> Vec<u16> {
        (0..=u16::MAX).filter(|&address| sheet[stain(address).0] & stain(address).1 != 0).collect()
    }

    fn number(refused: Answer) -> u8 {
        refused.unwrap_err().refusal.fault.number()
    }

    #[test]
    fn a_step_tells_the_first_stain_that_it_reads() {
        // LD of a byte at 0300.
        let (live, mut memory, blank) = exchange(&[0xB0, 0x00, 0x03], &[]);
        let cases: [(&[u16], Option<u16>); 4] =
            [(&[], None), (&[0x0300], Some(0x0300)), (&[0x0300, CODE + 2], Some(CODE + 2)), (&[0x0301], None)];
        for (stained, told) in cases {
            let mut sheet = blank.clone();
            stained.iter().for_each(|&address| set_stain(&mut sheet, address));
            let step = live.clone().step(&mut memory, &mut sheet);
            assert_eq!(step, Ok(Step { place: CODE, length: 3, told, end: None }));
        }
    }

    #[test]
    fn a_refused_step_tells_a_stain_and_changes_nothing() {
        // ST of a byte at 00FF, which the guard locks.
        let (mut live, mut memory, mut sheet) = exchange(&[0xB2, 0xFF, 0x00], &[]);
        set_stain(&mut sheet, CODE);
        let (cpu, bytes, before) = (live.cpu.clone(), memory.below.bytes.clone(), sheet.clone());
        let refusal = bus::Refusal { cause: Cause::Guarded, depth: 0 };
        let fault = Fault::Instruction(processor::Fault::Bus { refusal, address: 0x00FF });
        let refused = RefusedStep { refusal: Refusal { fault, place: CODE }, told: Some(CODE) };
        assert_eq!(live.step(&mut memory, &mut sheet), Err(refused));
        assert_eq!((live.cpu, memory.below.bytes, sheet), (cpu, bytes, before));
    }

    #[test]
    fn nothing_is_stored_where_one_byte_of_several_is_refused() {
        // DRP R40; ST of eight bytes at 0FFC, the last four of which RAM does not have.
        let (mut live, mut memory, mut sheet) = exchange(&[0xA8, 0xFF, 0x60, 0xB3, 0xFC, 0x0F], &[]);
        memory.below.bytes[0x0FFC] = 7;
        assert_eq!(live.run(9, &mut memory, &mut sheet).unwrap().done, 2);
        assert_eq!(number(live.step(&mut memory, &mut sheet)), 4);
        assert_eq!(memory.below.bytes[0x0FFC], 7);
    }

    #[test]
    fn stores_set_stains_within_visits_and_clear_them_outside() {
        // ST of a byte at 0300, in the program as in the handler.
        let store = [0xB2, 0x00, 0x03];
        let (mut live, mut memory, mut sheet) = exchange(&store, &[0xB2, 0x00, 0x03, 0x9E]);
        live.ring(8, &mut memory, &mut sheet).unwrap();
        assert_eq!(stains(&sheet), [STACK, STACK + 1]);
        live.run(2, &mut memory, &mut sheet).unwrap();
        assert_eq!(stains(&sheet), [0x0300, STACK, STACK + 1]);
        assert_eq!(live.step(&mut memory, &mut sheet).unwrap().told, None);
        assert_eq!(stains(&sheet), [STACK, STACK + 1]);
    }

    #[test]
    fn rings_are_checked_in_order() {
        let (mut live, mut memory, mut sheet) = exchange(&[], &[]);
        let mut ring = |live: &mut Live, vector, sheet: &mut [u8]| {
            live.ring(vector, &mut memory, sheet).map_err(|refusal| (refusal.fault.number(), refusal.place))
        };
        assert_eq!(ring(&mut live, 9, &mut []), Err((1, CODE)));
        assert_eq!(ring(&mut live, 9, &mut sheet), Err((2, CODE)));
        assert_eq!(ring(&mut Cold.go(CODE, 0x00FF), 8, &mut sheet), Err((6, CODE)));
        assert_eq!(ring(&mut Cold.go(CODE, 0x0FFF), 8, &mut sheet), Err((4, CODE)));
        assert_eq!(stains(&sheet), []);
        assert_eq!(ring(&mut live, 8, &mut sheet), Ok(()));
        assert_eq!((live.cpu.pc(), live.cpu.return_pointer()), (HANDLER, STACK + 2));
        assert_eq!(ring(&mut live, 9, &mut sheet), Err((2, HANDLER)));
        assert_eq!(ring(&mut live, 8, &mut sheet), Err((3, HANDLER)));
    }

    #[test]
    fn visits_end_clean_or_marred_by_the_first_difference() {
        // The handler, and how the visit ends.
        let cases: [(&[u8], End); 7] = [
            (&[0x9E], End::Clean),
            (&[0x9A, 0x3F, 0x99, 0x9F, 0x9E], End::Clean),
            (&[0x60, 0x88, 0x9C, 0x9E], End::Marred(0o40)),
            (&[0x3F, 0x60, 0x9E], End::Marred(64)),
            (&[0x60, 0x9E], End::Marred(65)),
            (&[0x99, 0x9C, 0x9E], End::Marred(66)),
            (&[0x9C, 0x9E], End::Marred(67)),
        ];
        for (handler, end) in cases {
            let (mut live, mut memory, mut sheet) = exchange(&[0x98], handler);
            live.ring(8, &mut memory, &mut sheet).unwrap();
            let last = (0..handler.len()).map(|_| live.step(&mut memory, &mut sheet).unwrap()).last();
            assert_eq!(last.and_then(|step| step.end), Some(end), "{handler:02X?}");
            assert_eq!((live.cpu.pc(), live.visit.is_none()), (CODE, true));
        }
    }

    #[test]
    fn only_the_return_that_brings_the_pointer_back_ends_a_visit() {
        // The handler calls 0210, which returns; then it lowers the return pointer by 2 without RTN.
        let (mut live, mut memory, mut sheet) = exchange(&[], &[0xCE, 0x10, 0x02, 0x06, 0x4A, 0xE3, 0x98]);
        memory.below.bytes[0x0210] = 0x9E;
        live.ring(8, &mut memory, &mut sheet).unwrap();
        for _ in 0..6 {
            assert_eq!(live.step(&mut memory, &mut sheet).unwrap().end, None);
        }
        assert_eq!(live.cpu.return_pointer(), STACK);
        assert!(live.visit.is_some());
    }

    #[test]
    fn runs_by_their_letters() {
        let run = |code: &[u8], handler: Option<&[u8]>, stained: &[u16], steps| {
            let (mut live, mut memory, mut sheet) = exchange(code, handler.unwrap_or_default());
            stained.iter().for_each(|&address| set_stain(&mut sheet, address));
            if handler.is_some() {
                live.ring(8, &mut memory, &mut sheet).unwrap();
            }
            let run = live.run(steps, &mut memory, &mut sheet).unwrap();
            let stop = match run.stop() {
                Stop::Refused(refusal) => format!("R {} {:04X}", refusal.fault.number(), refusal.place),
                Stop::Told(address) => format!("T {address:04X}"),
                Stop::Marred(mar) => format!("M {mar}"),
                Stop::Done => format!("S {}", run.last.is_some()),
            };
            format!("{} {stop}", run.done)
        };
        assert_eq!(run(&[], None, &[], 0), "0 S false");
        assert_eq!(run(&[], None, &[], 3), "3 S true");
        assert_eq!(run(&[0, 0, 0xD6], None, &[], 9), "2 R 8 0102");
        assert_eq!(run(&[0, 0, 0xD6], None, &[CODE + 2], 9), "2 R 8 0102");
        assert_eq!(run(&[0, 0, 0xD6], None, &[CODE + 1], 9), "2 T 0101");
        assert_eq!(run(&[0, 0, 0xD6], None, &[CODE + 1], 2), "2 T 0101");
        assert_eq!(run(&[], Some(&[0x9C, 0x9E]), &[HANDLER, CODE], 9), "2 M 67");
        assert_eq!(run(&[], Some(&[0x98, 0x9E]), &[HANDLER, CODE], 9), "3 T 0100");
        assert_eq!(run(&[], Some(&[0x9C, 0x9E]), &[], 1), "1 S true");
    }

    #[test]
    fn a_sheet_of_another_size_is_refused_first() {
        let (mut live, mut memory, _) = exchange(&[0xD6], &[]);
        for size in [0, SHEET - 1, SHEET + 1] {
            let mut sheet = vec![0xFF; size];
            let refusal = Refusal { fault: Fault::Sheet, place: CODE };
            assert_eq!(live.step(&mut memory, &mut sheet), Err(RefusedStep { refusal, told: None }));
            assert_eq!(live.run(0, &mut memory, &mut sheet), Err(refusal));
        }
    }
}
