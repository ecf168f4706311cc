//! The processor: its state, and what one instruction does.

use crate::arithmetic::{ones, Counting, Row, Shifted, Worked};
use crate::bus;

/// The registers that the processor itself uses, each the low one of a pair.
const SUM: u8 = 0o2;
const PC: u8 = 0o4;
const RETURN: u8 = 0o6;

/// The 64 registers.
#[derive(Clone, Debug, PartialEq, Eq)]
pub struct Registers {
    bytes: [u8; 64],
}

impl Registers {
    pub fn bytes(&self) -> &[u8; 64] {
        &self.bytes
    }

    #[inline]
    pub fn get(&self, register: u8) -> u8 {
        self.bytes[usize::from(register % 64)]
    }

    /// `bytes` registers from `first` on, past R77 to R0.
    #[inline]
    pub fn row(&self, first: u8, bytes: u32) -> Row {
        let place = usize::from(first);
        let value = if bytes == 1 {
            self.get(first).into()
        } else if let Some(Ok(eight)) = self.bytes.get(place..place + 8).map(<[u8; 8]>::try_from) {
            u64::from_le_bytes(eight)
        } else {
            (0..8).map(|i| u64::from(self.get(first + i)) << (8 * i)).sum()
        };
        Row::new(value, bytes)
    }

    #[inline]
    pub fn set_row(&mut self, first: u8, Row { value, bytes }: Row) {
        let place = usize::from(first);
        if bytes == 1 {
            self.bytes[place % 64] = value as u8;
        } else if let Some(eight) = self.bytes.get_mut(place..place + 8) {
            let mut old = [0; 8];
            old.copy_from_slice(eight);
            let kept = u64::from_le_bytes(old) & !ones(bytes);
            eight.copy_from_slice(&(kept | value).to_le_bytes());
        } else {
            for (i, byte) in (0..bytes as usize).zip(value.to_le_bytes()) {
                self.bytes[(place + i) % 64] = byte;
            }
        }
    }

    #[inline]
    pub fn pair(&self, first: u8) -> u16 {
        u16::from_le_bytes([self.get(first), self.get(first + 1)])
    }

    #[inline]
    pub fn set_pair(&mut self, first: u8, pair: u16) {
        let [low, high] = pair.to_le_bytes();
        self.bytes[usize::from(first % 64)] = low;
        self.bytes[usize::from((first + 1) % 64)] = high;
    }
}

impl Default for Registers {
    fn default() -> Self {
        Self { bytes: [0; 64] }
    }
}

/// The eight status bits.
#[derive(Clone, Copy, Debug, Default, PartialEq, Eq)]
pub struct Status {
    /// Decimal mode.
    pub dcm: bool,
    /// Carry.
    pub cy: bool,
    /// Overflow.
    pub ovf: bool,
    /// Least significant bit.
    pub lsb: bool,
    /// Most significant bit.
    pub msb: bool,
    /// Zero.
    pub z: bool,
    /// Left digit zero.
    pub ldz: bool,
    /// Right digit zero.
    pub rdz: bool,
}

impl From<Status> for u8 {
    fn from(status: Status) -> Self {
        let Status { dcm, cy, ovf, lsb, msb, z, ldz, rdz } = status;
        [dcm, cy, ovf, lsb, msb, z, ldz, rdz].iter().rev().fold(0, |byte, &bit| 2 * byte + u8::from(bit))
    }
}

/// The processor. ARP and DRP are at most 63 and E at most 15.
#[derive(Clone, Debug, Default, PartialEq, Eq)]
pub struct Cpu {
    pub registers: Registers,
    arp: u8,
    drp: u8,
    pub status: Status,
    e: u8,
}

/// Why an instruction is refused.
#[derive(Clone, Copy, Debug, PartialEq, Eq)]
pub enum Fault {
    Bus {
        refusal: bus::Refusal,
        address: u16,
    },
    /// The code.
    Illegal(u8),
    /// The index of the byte: data 0 to 7, operand 8 to 15.
    NotDecimal(u8),
}

/// An instruction's way to the bus.
pub trait Port {
    fn read(&mut self, address: u16) -> Result<u8, Fault>;

    fn inquire(&self, address: u16) -> Result<(), Fault>;

    fn store(&mut self, address: u16, byte: u8) -> Result<(), Fault>;

    /// Told when PC has passed an instruction of this length.
    fn passed(&mut self, length: u8);

    /// Told when RTN is done.
    fn returned(&mut self);

    /// `bytes` bytes from `address` upward.
    #[inline]
    fn read_row(&mut self, address: u16, bytes: u32) -> Result<Row, Fault> {
        let mut value = 0;
        for i in 0..bytes {
            value |= u64::from(self.read(address.wrapping_add(i as u16))?) << (8 * i);
        }
        Ok(Row { value, bytes })
    }

    #[inline]
    fn read_pair(&mut self, address: u16) -> Result<u16, Fault> {
        Ok(self.read_row(address, 2)?.value as u16)
    }

    /// Stores a row from `address` upward, once every byte of it would be taken.
    #[inline]
    fn store_row(&mut self, address: u16, row: Row) -> Result<(), Fault> {
        let places = (0..row.bytes).map(|i| (address.wrapping_add(i as u16), (row.value >> (8 * i)) as u8));
        for (address, _) in places.clone() {
            self.inquire(address)?;
        }
        for (address, byte) in places {
            self.store(address, byte)?;
        }
        Ok(())
    }
}

/// Where an operand is.
#[derive(Clone, Copy, Debug, PartialEq, Eq)]
enum Mode {
    Register,
    RegisterDirect,
    Immediate,
    RegisterIndirect,
    LiteralDirect,
    IndexedDirect,
    LiteralIndirect,
    IndexedIndirect,
}

impl Mode {
    /// The mode of a code of LD or ST.
    const fn of_transfer(code: u8) -> Self {
        match code / 4 % 8 {
            0 => Self::Register,
            1 => Self::RegisterDirect,
            2 => Self::Immediate,
            3 => Self::RegisterIndirect,
            4 => Self::LiteralDirect,
            5 => Self::IndexedDirect,
            6 => Self::LiteralIndirect,
            _ => Self::IndexedIndirect,
        }
    }

    /// The mode of a code of CM, AD, SB or AN.
    const fn of_operation(code: u8) -> Self {
        match code / 8 % 4 {
            0 => Self::Register,
            1 => Self::Immediate,
            2 => Self::LiteralDirect,
            _ => Self::RegisterDirect,
        }
    }

    /// How many bytes follow the code, where the operand has `bytes` bytes.
    const fn literal(self, bytes: u32) -> u32 {
        match self {
            Self::Register | Self::RegisterDirect | Self::RegisterIndirect => 0,
            Self::Immediate => bytes,
            Self::LiteralDirect | Self::IndexedDirect | Self::LiteralIndirect | Self::IndexedIndirect => 2,
        }
    }

    const fn is_indirect(self) -> bool {
        matches!(self, Self::RegisterIndirect | Self::LiteralIndirect | Self::IndexedIndirect)
    }
}

/// An address that was found, and the sum that goes to R2-R3 where it is indexed.
#[derive(Clone, Copy)]
struct Found {
    address: u16,
    sum: Option<u16>,
}

impl Cpu {
    /// A processor at `pc`, all other state 0.
    pub fn new(pc: u16, return_pointer: u16) -> Self {
        let mut cpu = Self::default();
        cpu.registers.set_pair(PC, pc);
        cpu.registers.set_pair(RETURN, return_pointer);
        cpu
    }

    pub fn pc(&self) -> u16 {
        self.registers.pair(PC)
    }

    pub fn return_pointer(&self) -> u16 {
        self.registers.pair(RETURN)
    }

    pub fn arp(&self) -> u8 {
        self.arp
    }

    pub fn drp(&self) -> u8 {
        self.drp
    }

    pub fn e(&self) -> u8 {
        self.e
    }

    fn counting(&self) -> Counting {
        if self.status.dcm {
            Counting::Decimal
        } else {
            Counting::Binary
        }
    }

    /// How many bytes a code of an instruction with two forms works on.
    #[inline]
    fn span(&self, code: u8) -> u32 {
        let group = if self.drp < 0o40 { 2 } else { 8 };
        if code % 2 == 0 {
            1
        } else {
            group - u32::from(self.drp) % group
        }
    }

    /// Carries out the instruction at PC. Where it is refused, the processor and the bus stay as they were.
    #[inline(always)]
    pub fn execute(&mut self, port: &mut impl Port) -> Result<(), Fault> {
        let place = self.pc();
        let done = self.perform(place, port);
        if done.is_err() {
            // Nothing else is written before the last check.
            self.registers.set_pair(PC, place);
        }
        done
    }

    #[inline(always)]
    #[allow(clippy::manual_range_patterns)]
    fn perform(&mut self, place: u16, port: &mut impl Port) -> Result<(), Fault> {
        let code = port.read(place)?;
        self.registers.set_pair(PC, place.wrapping_add(1));
        port.passed(1);
        // Single numbers, not ranges: only these become one jump through a table.
        match code / 16 {
            0x0 | 0x1 | 0x2 | 0x3 => self.arp = self.pointer(code),
            0x4 | 0x5 | 0x6 | 0x7 => self.drp = self.pointer(code),
            0x8 => self.operate(code)?,
            0x9 => self.control(code, port)?,
            0xA | 0xB => self.transfer(code, port)?,
            0xC | 0xD => self.combine(code, port)?,
            0xE => self.stack(code, port)?,
            _ => self.jump(code, port)?,
        }
        Ok(())
    }

    /// Reads what follows the code, and passes PC over it.
    #[inline(always)]
    fn fetch(&mut self, bytes: u32, port: &mut impl Port) -> Result<u64, Fault> {
        let place = self.pc();
        let literal = port.read_row(place, bytes)?.value;
        self.registers.set_pair(PC, place.wrapping_add(bytes as u16));
        port.passed(1 + bytes as u8);
        Ok(literal)
    }

    /// Codes 90 to 9F.
    #[inline(always)]
    fn control(&mut self, code: u8, port: &mut impl Port) -> Result<(), Fault> {
        match code {
            0x98 => self.status.dcm = false,
            0x99 => self.status.dcm = true,
            0x9A => self.save_status(port)?,
            0x9B => self.e = self.e.wrapping_sub(1) % 16,
            0x9C => self.e = (self.e + 1) % 16,
            0x9D => self.e = 0,
            0x9E => self.return_from(port)?,
            0x9F => self.restore_status(port)?,
            _ => self.operate(code)?,
        }
        Ok(())
    }

    /// The pointer that a code of the first half sets.
    fn pointer(&self, code: u8) -> u8 {
        match code % 64 {
            1 => self.registers.get(0) % 64,
            register => register,
        }
    }

    #[inline]
    fn data(&self, bytes: u32) -> Row {
        self.registers.row(self.drp, bytes)
    }

    /// Sets the status by a result.
    #[inline]
    fn judge(&mut self, row: Row, cy: bool, ovf: bool) {
        self.status = Status {
            dcm: self.status.dcm,
            cy,
            ovf,
            lsb: row.low_bit(),
            msb: row.top_bit(),
            z: row.is_zero(),
            ldz: row.top_digit_is_zero(),
            rdz: row.low_digit_is_zero(),
        };
    }

    /// Writes a result to the data registers and sets the status by it.
    #[inline]
    fn conclude(&mut self, row: Row, cy: bool, ovf: bool) {
        self.registers.set_row(self.drp, row);
        self.judge(row, cy, ovf);
    }

    #[inline]
    fn conclude_work(&mut self, Worked { row, carry, overflow }: Worked) {
        self.conclude(row, carry, overflow);
    }

    /// In decimal mode a row must have decimal digits; `first` is the index of its first byte.
    fn checked(&self, row: Row, first: u8) -> Result<Row, Fault> {
        match self.counting() {
            Counting::Binary => Ok(row),
            Counting::Decimal => row.not_decimal().map_or(Ok(row), |index| Err(Fault::NotDecimal(first + index))),
        }
    }

    /// Codes 80 to 97: operations on the data.
    #[inline(always)]
    fn operate(&mut self, code: u8) -> Result<(), Fault> {
        let bytes = self.span(code);
        let (data, counting) = (self.data(bytes), self.counting());
        let number = |value| Row::new(value, bytes);
        match code / 2 % 16 {
            0x0 => self.conclude_left(data, self.extension()),
            0x1 => self.conclude_right(data, self.extension()),
            0x2 => self.conclude_left(data, 0),
            0x3 => self.conclude_right(data, 0),
            0x4 => self.conclude_work(self.checked(data, 0)?.plus(number(1), counting)),
            0x5 => self.conclude_work(self.checked(data, 0)?.minus(number(1), counting)),
            0x6 => self.conclude_work(number(0).minus(self.checked(data, 0)?, counting)),
            0x7 => self.conclude(self.checked(data, 0)?.complement(counting), false, false),
            0x8 => self.judge(data, false, false),
            0x9 => self.conclude(number(0), false, false),
            0xA => self.conclude(number(data.value | self.registers.row(self.arp, bytes).value), false, false),
            _ => self.conclude(number(data.value ^ self.registers.row(self.arp, bytes).value), false, false),
        }
        Ok(())
    }

    /// What EL and ER put in.
    fn extension(&self) -> u8 {
        match self.counting() {
            Counting::Binary => self.status.cy.into(),
            Counting::Decimal => self.e,
        }
    }

    fn conclude_left(&mut self, data: Row, put_in: u8) {
        let shifted = data.left(put_in, self.counting());
        let sign_changed = data.top_bit() != shifted.row.top_bit();
        self.conclude_shift(shifted, sign_changed);
    }

    fn conclude_right(&mut self, data: Row, put_in: u8) {
        self.conclude_shift(data.right(put_in, self.counting()), false);
    }

    fn conclude_shift(&mut self, Shifted { row, lost }: Shifted, overflow: bool) {
        match self.counting() {
            Counting::Binary => self.conclude(row, lost == 1, overflow),
            Counting::Decimal => {
                self.e = lost;
                self.conclude(row, false, false);
            }
        }
    }

    /// Finds the address of an operand in memory.
    #[inline(always)]
    fn find(&self, mode: Mode, literal: u64, port: &mut impl Port) -> Result<Found, Fault> {
        let (pair, literal) = (self.registers.pair(self.arp), literal as u16);
        let (start, sum) = match mode {
            Mode::Register | Mode::RegisterDirect | Mode::RegisterIndirect => (pair, None),
            Mode::Immediate | Mode::LiteralDirect | Mode::LiteralIndirect => (literal, None),
            Mode::IndexedDirect | Mode::IndexedIndirect => {
                let sum = pair.wrapping_add(literal);
                (sum, Some(sum))
            }
        };
        let address = if mode.is_indirect() { port.read_pair(start)? } else { start };
        Ok(Found { address, sum })
    }

    fn keep_sum(&mut self, sum: Option<u16>) {
        if let Some(sum) = sum {
            self.registers.set_pair(SUM, sum);
        }
    }

    /// LD and ST.
    #[inline(always)]
    fn transfer(&mut self, code: u8, port: &mut impl Port) -> Result<(), Fault> {
        let (mode, bytes) = (Mode::of_transfer(code), self.span(code));
        let literal = self.fetch(mode.literal(bytes), port)?;
        if code & 2 == 0 {
            self.load(mode, bytes, literal, port)
        } else {
            self.store(mode, bytes, literal, port)
        }
    }

    #[inline(always)]
    fn load(&mut self, mode: Mode, bytes: u32, literal: u64, port: &mut impl Port) -> Result<(), Fault> {
        let row = match mode {
            Mode::Register => self.registers.row(self.arp, bytes),
            Mode::Immediate => Row { value: literal, bytes },
            _ => {
                let Found { address, sum } = self.find(mode, literal, port)?;
                let row = port.read_row(address, bytes)?;
                self.keep_sum(sum);
                row
            }
        };
        self.conclude(row, false, false);
        Ok(())
    }

    #[inline(always)]
    fn store(&mut self, mode: Mode, bytes: u32, literal: u64, port: &mut impl Port) -> Result<(), Fault> {
        let data = self.data(bytes);
        match mode {
            Mode::Register => self.registers.set_row(self.arp, data),
            Mode::Immediate => port.store_row(self.pc().wrapping_sub(bytes as u16), data)?,
            _ => {
                let Found { address, sum } = self.find(mode, literal, port)?;
                port.store_row(address, data)?;
                self.keep_sum(sum);
            }
        }
        self.judge(data, false, false);
        Ok(())
    }

    /// CM, AD, SB and AN.
    #[inline(always)]
    fn combine(&mut self, code: u8, port: &mut impl Port) -> Result<(), Fault> {
        match code {
            0xC6 | 0xCE => return self.call(code, port),
            0xD6 | 0xDE => return Err(Fault::Illegal(code)),
            _ => {}
        }
        let (mode, bytes) = (Mode::of_operation(code), self.span(code));
        let literal = self.fetch(mode.literal(bytes), port)?;
        let (data, counting) = (self.data(bytes), self.counting());
        let operand = match mode {
            Mode::Register => self.registers.row(self.arp, bytes),
            Mode::Immediate => Row { value: literal, bytes },
            _ => {
                let found = self.find(mode, literal, port)?;
                port.read_row(found.address, bytes)?
            }
        };
        if code % 8 == 7 {
            self.conclude(Row { value: data.value & operand.value, bytes }, false, false);
            return Ok(());
        }
        let (data, operand) = (self.checked(data, 0)?, self.checked(operand, 8)?);
        match code / 2 % 4 {
            0 => {
                let Worked { row, carry, overflow } = data.minus(operand, counting);
                self.judge(row, carry, overflow);
            }
            1 => self.conclude_work(data.plus(operand, counting)),
            _ => self.conclude_work(data.minus(operand, counting)),
        }
        Ok(())
    }

    /// PO and PU.
    #[inline(always)]
    fn stack(&mut self, code: u8, port: &mut impl Port) -> Result<(), Fault> {
        let (indirect, push, lower) = (code & 8 != 0, code & 4 != 0, code & 2 != 0);
        let bytes = self.span(code);
        let data = self.data(bytes);
        let by = if indirect { 2 } else { bytes as u16 };
        let pair = self.registers.pair(self.arp);
        let moved = if lower { pair.wrapping_sub(by) } else { pair.wrapping_add(by) };
        let used = if lower { moved } else { pair };
        let address = if indirect { port.read_pair(used)? } else { used };
        if push {
            port.store_row(address, data)?;
            self.registers.set_pair(self.arp, moved);
            self.judge(data, false, false);
        } else {
            let row = port.read_row(address, bytes)?;
            self.registers.set_pair(self.arp, moved);
            self.conclude(row, false, false);
        }
        Ok(())
    }

    /// A jump.
    #[inline(always)]
    fn jump(&mut self, code: u8, port: &mut impl Port) -> Result<(), Fault> {
        let offset = self.fetch(1, port)? as u8 as i8;
        if self.holds(code) {
            self.registers.set_pair(PC, self.pc().wrapping_add(offset as u16));
        }
        Ok(())
    }

    /// JSB.
    fn call(&mut self, code: u8, port: &mut impl Port) -> Result<(), Fault> {
        let literal = self.fetch(2, port)?;
        let mode = if code == 0xC6 { Mode::IndexedDirect } else { Mode::LiteralDirect };
        let Found { address, sum } = self.find(mode, literal, port)?;
        self.enter(address, port)?;
        self.keep_sum(sum);
        Ok(())
    }

    /// Stores PC at the return pointer, raises that, and goes to `address`.
    pub fn enter(&mut self, address: u16, port: &mut impl Port) -> Result<(), Fault> {
        self.push(Row::new(self.pc().into(), 2), port)?;
        self.registers.set_pair(PC, address);
        Ok(())
    }

    /// RTN.
    fn return_from(&mut self, port: &mut impl Port) -> Result<(), Fault> {
        let address = self.pull(2, port)?;
        self.registers.set_pair(PC, address.value as u16);
        port.returned();
        Ok(())
    }

    /// SAD.
    fn save_status(&mut self, port: &mut impl Port) -> Result<(), Fault> {
        let Status { dcm, cy, ovf, lsb, msb, z, ldz, rdz } = self.status;
        let pointer = |pointer, bit_6, bit_7| pointer | u8::from(bit_6) << 6 | u8::from(bit_7) << 7;
        let digits = u8::from(lsb) | u8::from(msb) << 1 | u8::from(ldz) << 2 | u8::from(rdz) << 3;
        let bytes = [pointer(self.arp, cy, ovf), pointer(self.drp, dcm, z), digits, 0];
        self.push(Row::new(u32::from_le_bytes(bytes).into(), 3), port)
    }

    /// PAD.
    fn restore_status(&mut self, port: &mut impl Port) -> Result<(), Fault> {
        let [first, second, third, _] = (self.pull(3, port)?.value as u32).to_le_bytes();
        let bit = |byte: u8, number: u32| byte >> number & 1 == 1;
        self.arp = first % 64;
        self.drp = second % 64;
        self.status = Status {
            cy: bit(first, 6),
            ovf: bit(first, 7),
            dcm: bit(second, 6),
            z: bit(second, 7),
            lsb: bit(third, 0),
            msb: bit(third, 1),
            ldz: bit(third, 2),
            rdz: bit(third, 3),
        };
        Ok(())
    }

    /// Stores a row at the return pointer and raises that.
    fn push(&mut self, row: Row, port: &mut impl Port) -> Result<(), Fault> {
        let pointer = self.return_pointer();
        port.store_row(pointer, row)?;
        self.registers.set_pair(RETURN, pointer.wrapping_add(row.bytes as u16));
        Ok(())
    }

    /// Lowers the return pointer and reads a row from it.
    fn pull(&mut self, bytes: u32, port: &mut impl Port) -> Result<Row, Fault> {
        let pointer = self.return_pointer().wrapping_sub(bytes as u16);
        let row = port.read_row(pointer, bytes)?;
        self.registers.set_pair(RETURN, pointer);
        Ok(row)
    }

    /// Whether a jump is taken.
    fn holds(&self, code: u8) -> bool {
        let status = &self.status;
        match code % 16 {
            0x0 => true,
            0x1 => !status.ovf,
            0x2 => status.lsb,
            0x3 => !status.lsb,
            0x4 => status.msb != status.ovf,
            0x5 => status.msb == status.ovf,
            0x6 => !status.z,
            0x7 => status.z,
            0x8 => self.e != 0,
            0x9 => self.e == 0,
            0xA => !status.cy,
            0xB => status.cy,
            0xC => status.ldz,
            0xD => !status.ldz,
            0xE => status.rdz,
            _ => !status.rdz,
        }
    }
}

#[cfg(test)]
mod tests {
    use super::*;

    /// All addresses, each with a byte; none refuses.
    struct Flat {
        memory: Vec<u8>,
        length: u8,
        returned: bool,
    }

    impl Port for Flat {
        fn read(&mut self, address: u16) -> Result<u8, Fault> {
            Ok(self.memory[usize::from(address)])
        }

        fn inquire(&self, _: u16) -> Result<(), Fault> {
            Ok(())
        }

        fn store(&mut self, address: u16, byte: u8) -> Result<(), Fault> {
            self.memory[usize::from(address)] = byte;
            Ok(())
        }

        fn passed(&mut self, length: u8) {
            self.length = length;
        }

        fn returned(&mut self) {
            self.returned = true;
        }
    }

    impl Flat {
        fn with(address: u16, bytes: &[u8]) -> Self {
            let mut memory = vec![0; 65_536];
            memory[usize::from(address)..][..bytes.len()].copy_from_slice(bytes);
            Self { memory, length: 0, returned: false }
        }

        fn pair(&mut self, address: u16) -> u16 {
            self.read_pair(address).unwrap()
        }
    }

    const CODE: u16 = 0x0100;

    /// Carries out all of `code` from `CODE` on, one instruction after another.
    fn carry_out(cpu: &mut Cpu, code: &[u8]) -> Flat {
        let mut memory = Flat::with(CODE, code);
        cpu.registers.set_pair(PC, CODE);
        while (CODE..CODE + code.len() as u16).contains(&cpu.pc()) {
            cpu.execute(&mut memory).unwrap();
        }
        memory
    }

    fn row(cpu: &Cpu, first: u8, bytes: u32) -> u64 {
        cpu.registers.row(first, bytes).value
    }

    /// The status bits that are set, by name.
    fn set_bits(cpu: &Cpu) -> Vec<&'static str> {
        let names = ["DCM", "CY", "OVF", "LSB", "MSB", "Z", "LDZ", "RDZ"];
        let status = u8::from(cpu.status);
        (0..8).filter(|bit| status >> bit & 1 == 1).map(|bit| names[bit]).collect()
    }

    #[test]
    fn rows_of_registers_wrap() {
        let mut cpu = Cpu::default();
        cpu.registers.set_row(0o75, Row::new(0x05_04_03_02_01, 5));
        assert_eq!(cpu.registers.bytes()[0o75..], [1, 2, 3]);
        assert_eq!(cpu.registers.bytes()[..3], [4, 5, 0]);
        assert_eq!(row(&cpu, 0o75, 5), 0x05_04_03_02_01);
        assert_eq!(cpu.registers.pair(0o77), 0x0403);
        cpu.registers.set_pair(0o77, 0xAABB);
        assert_eq!(row(&cpu, 0o76, 4), 0x05AA_BB02);
    }

    #[test]
    fn spans_by_drp() {
        let span = |drp| Cpu { drp, ..Cpu::default() }.span(0x81);
        assert_eq!([0o42, 0o30, 0o37, 0o77, 0o40, 0o00].map(span), [6, 2, 1, 1, 8, 2]);
    }

    #[test]
    fn every_code_but_two_is_an_instruction_with_its_length() {
        // DRP is R45, so that a span is 3.
        for code in 0..=u8::MAX {
            let length = match code {
                0xD6 | 0xDE => None,
                0xA8 | 0xAA | 0xC8 | 0xCA | 0xCC | 0xF0..=0xFF => Some(2),
                0xB0..=0xBF | 0xC6 | 0xCE | 0xD0..=0xD5 | 0xD7 => Some(3),
                0xA9 | 0xAB | 0xC9 | 0xCB | 0xCD | 0xCF => Some(4),
                _ => Some(1),
            };
            let mut cpu = Cpu { drp: 0o45, ..Cpu::new(CODE, 0x0400) };
            let mut memory = Flat::with(CODE, &[code]);
            assert_eq!(cpu.execute(&mut memory).ok().map(|()| memory.length), length, "{code:02X}");
        }
    }

    #[test]
    fn pointers_from_r0() {
        let mut cpu = Cpu::default();
        cpu.registers.set_row(0, Row::new(0xC5, 1));
        carry_out(&mut cpu, &[0x01, 0x41]);
        assert_eq!((cpu.arp, cpu.drp), (5, 5));
        carry_out(&mut cpu, &[0x3F, 0x40]);
        assert_eq!((cpu.arp, cpu.drp), (63, 0));
    }

    #[test]
    fn a_load_from_registers_takes_its_span_from_drp() {
        let mut cpu = Cpu::default();
        cpu.registers.set_row(0o40, Row::new(0x8877_6655_4433_2211, 8));
        let mut expected = cpu.registers.clone();
        expected.set_pair(0o30, 0x4433);
        expected.set_pair(PC, CODE + 3);
        carry_out(&mut cpu, &[0x22, 0x58, 0xA1]);
        assert_eq!(cpu.registers, expected);
    }

    #[test]
    fn results_and_status() {
        // The code, with data at R40 on; what the data and the status are afterwards.
        type Case = (&'static [u8], u64, u32, &'static [&'static str]);
        const CASES: [Case; 10] = [
            (&[0x66, 0xA9, 0xFF, 0xFF, 0x89], 0x0000, 2, &["CY", "Z", "LDZ", "RDZ"]),
            (&[0x60, 0xA8, 0x7F, 0x88], 0x80, 1, &["OVF", "MSB", "RDZ"]),
            (&[0x60, 0xA8, 0x80, 0x8C], 0x80, 1, &["OVF", "MSB", "RDZ"]),
            (&[0x60, 0xA8, 0x00, 0x8C], 0x00, 1, &["CY", "Z", "LDZ", "RDZ"]),
            (&[0x99, 0x66, 0xA9, 0x99, 0x09, 0xCB, 0x01, 0x00], 0x1000, 2, &["DCM", "RDZ"]),
            (&[0x99, 0x60, 0xA8, 0x00, 0xCC, 0x01], 0x99, 1, &["DCM", "LSB", "MSB"]),
            (&[0x60, 0xA8, 0x05, 0xC8, 0x05], 0x05, 1, &["CY", "Z", "LDZ", "RDZ"]),
            (&[0x60, 0xA8, 0x40, 0x84], 0x80, 1, &["OVF", "MSB", "RDZ"]),
            (&[0x60, 0xA8, 0x81, 0x86, 0x82], 0xA0, 1, &["MSB", "RDZ"]),
            (&[0x99, 0x60, 0xA8, 0x12, 0x8E], 0x87, 1, &["DCM", "LSB", "MSB"]),
        ];
        for (code, data, bytes, bits) in CASES {
            let mut cpu = Cpu::default();
            carry_out(&mut cpu, code);
            assert_eq!(row(&cpu, cpu.drp, bytes), data, "{code:02X?}");
            assert_eq!(set_bits(&cpu), bits, "{code:02X?}");
        }
    }

    #[test]
    fn decimal_shifts_go_by_e() {
        for (shift, data, e) in [(0x84, 0x70, 4), (0x80, 0x73, 4), (0x86, 0x04, 7), (0x82, 0x34, 7)] {
            let mut cpu = Cpu { e: 3, ..Cpu::default() };
            carry_out(&mut cpu, &[0x99, 0x60, 0xA8, 0x47, shift]);
            assert_eq!((row(&cpu, 0o40, 1), cpu.e), (data, e), "{shift:02X}");
        }
    }

    #[test]
    fn digits_are_checked_in_decimal_mode_data_first() {
        let refused = |code: &[u8]| {
            let mut cpu = Cpu { drp: 0o46, status: Status { dcm: true, ..Status::default() }, ..Cpu::default() };
            cpu.registers.set_pair(PC, CODE);
            cpu.registers.set_pair(0o46, 0x1A00);
            let before = cpu.clone();
            let fault = cpu.execute(&mut Flat::with(CODE, code)).unwrap_err();
            assert_eq!(cpu, before);
            fault
        };
        assert_eq!(refused(&[0x89]), Fault::NotDecimal(1));
        assert_eq!(refused(&[0xCB, 0x0A, 0x00]), Fault::NotDecimal(1));
        let mut cpu = Cpu::default();
        let mut memory = Flat::with(CODE, &[0x99, 0x66, 0xC9, 0x00, 0xA0]);
        cpu.registers.set_pair(PC, CODE);
        assert!(cpu.execute(&mut memory).is_ok() && cpu.execute(&mut memory).is_ok());
        assert_eq!(cpu.execute(&mut memory), Err(Fault::NotDecimal(9)));
    }

    #[test]
    fn operands_by_each_mode() {
        let cases: [(&[u8], u16); 8] = [
            (&[0xA1], 0x2000),
            (&[0xA5], 0x2100),
            (&[0xA9, 0x78, 0x56], 0x5678),
            (&[0xAD], 0x1111),
            (&[0xB1, 0x00, 0x21], 0x1111),
            (&[0xB5, 0x08, 0x00], 0x2200),
            (&[0xB9, 0x00, 0x20], 0x1111),
            (&[0xBD, 0x08, 0x00], 0x2222),
        ];
        for (code, loaded) in cases {
            let mut memory = Flat::with(CODE, code);
            for (address, pair) in [(0x2000, 0x2100), (0x2008, 0x2200), (0x2100, 0x1111), (0x2200, 0x2222_u16)] {
                memory.memory[address..address + 2].copy_from_slice(&pair.to_le_bytes());
            }
            let mut cpu = Cpu { arp: 0o30, drp: 0o10, ..Cpu::new(CODE, 0) };
            cpu.registers.set_pair(0o30, 0x2000);
            cpu.execute(&mut memory).unwrap();
            assert_eq!(cpu.registers.pair(0o10), loaded, "{code:02X?}");
            let indexed = matches!(code[0], 0xB5 | 0xBD);
            assert_eq!(cpu.registers.pair(SUM), if indexed { 0x2008 } else { 0 });
        }
    }

    #[test]
    fn an_indexed_store_of_r2_stores_what_was_there() {
        let mut cpu = Cpu { arp: 0o30, drp: 0o2, ..Cpu::default() };
        cpu.registers.set_pair(0o30, 0x2000);
        cpu.registers.set_pair(SUM, 0x1234);
        let mut memory = carry_out(&mut cpu, &[0xB7, 0x10, 0x00]);
        assert_eq!((memory.pair(0x2010), cpu.registers.pair(SUM)), (0x1234, 0x2010));
    }

    #[test]
    fn an_immediate_store_writes_the_bytes_after_the_code() {
        let mut cpu = Cpu { drp: 0o46, ..Cpu::default() };
        cpu.registers.set_pair(0o46, 0x1234);
        let mut memory = carry_out(&mut cpu, &[0xAB, 0, 0]);
        assert_eq!(memory.pair(CODE + 1), 0x1234);
        assert_eq!(cpu.pc(), CODE + 3);
    }

    #[test]
    fn stacks_move_their_pair() {
        // The code; the pair at R12 afterwards, from 2000; where a pair of bytes was stored.
        let cases: [(u8, u16, u16); 4] =
            [(0xE5, 0x2002, 0x2000), (0xE7, 0x1FFE, 0x1FFE), (0xED, 0x2002, 0x2100), (0xEF, 0x1FFE, 0x2200)];
        for (code, pair, address) in cases {
            let mut memory = Flat::with(CODE, &[code]);
            memory.memory[0x1FFE..0x2002].copy_from_slice(&[0x00, 0x22, 0x00, 0x21]);
            let mut cpu = Cpu { arp: 0o12, drp: 0o12, ..Cpu::new(CODE, 0) };
            cpu.registers.set_pair(0o12, 0x2000);
            cpu.execute(&mut memory).unwrap();
            // The pair that moves is stored as it was.
            assert_eq!((cpu.registers.pair(0o12), memory.pair(address)), (pair, 0x2000), "{code:02X}");
        }
    }

    #[test]
    fn what_is_popped_into_the_moved_pair_stays() {
        let mut cpu = Cpu { arp: 0o12, drp: 0o12, ..Cpu::new(CODE, 0) };
        cpu.registers.set_pair(0o12, 0x2000);
        let mut memory = Flat::with(CODE, &[0xE1]);
        memory.memory[0x2000] = 0x34;
        cpu.execute(&mut memory).unwrap();
        assert_eq!(cpu.registers.pair(0o12), 0x0034);
    }

    #[test]
    fn a_result_in_r4_is_a_jump_and_r4_as_operand_has_passed() {
        let mut cpu = Cpu { drp: PC, ..Cpu::default() };
        carry_out(&mut cpu, &[0xA9, 0x34, 0x12]);
        assert_eq!(cpu.pc(), 0x1234);
        let mut cpu = Cpu { arp: PC, drp: 0o46, ..Cpu::default() };
        carry_out(&mut cpu, &[0xA1]);
        assert_eq!(cpu.registers.pair(0o46), CODE + 1);
    }

    #[test]
    fn calls_and_returns() {
        let mut cpu = Cpu { arp: 0o30, ..Cpu::new(0, 0x0400) };
        cpu.registers.set_pair(0o30, 0x2000);
        let mut memory = carry_out(&mut cpu, &[0xC6, 0x05, 0x00]);
        assert_eq!((cpu.pc(), cpu.return_pointer(), cpu.registers.pair(SUM)), (0x2005, 0x0402, 0x2005));
        assert_eq!(memory.pair(0x0400), CODE + 3);
        assert!(!memory.returned);
        memory.memory[0x2005] = 0x9E;
        cpu.execute(&mut memory).unwrap();
        assert!(memory.returned);
        assert_eq!((cpu.pc(), cpu.return_pointer()), (CODE + 3, 0x0400));
    }

    #[test]
    fn status_is_saved_in_three_bytes_and_taken_back() {
        let status = Status { cy: true, z: true, msb: true, ..Status::default() };
        let mut cpu = Cpu { arp: 0o25, drp: 0o37, status, ..Cpu::new(0, 0x0400) };
        let mut memory = carry_out(&mut cpu, &[0x9A]);
        assert_eq!(memory.memory[0x0400..0x0403], [0o25 | 64, 0o37 | 128, 2]);
        assert_eq!(cpu.return_pointer(), 0x0403);
        memory.memory[0x0400..0x0403].copy_from_slice(&[0xFF, 0x41, 0xF4]);
        memory.memory[usize::from(cpu.pc())] = 0x9F;
        cpu.execute(&mut memory).unwrap();
        assert_eq!((cpu.arp, cpu.drp, cpu.return_pointer()), (63, 1, 0x0400));
        assert_eq!(set_bits(&cpu), ["DCM", "CY", "OVF", "LDZ"]);
    }

    #[test]
    fn jumps() {
        let mut cpu = Cpu::new(CODE, 0);
        cpu.execute(&mut Flat::with(CODE, &[0xF0, 0xFE])).unwrap();
        assert_eq!(cpu.pc(), 256);
        cpu.execute(&mut Flat::with(CODE, &[0xF0, 0x7F])).unwrap();
        assert_eq!(cpu.pc(), 385);
        // The codes whose jumps are taken, by what is set.
        let taken = |cpu: Cpu| -> Vec<u8> { (0xF0..=0xFF).filter(|&code| cpu.holds(code)).collect() };
        let status = Status { ovf: true, lsb: true, z: true, ..Status::default() };
        assert_eq!(taken(Cpu::default()), [0xF0, 0xF1, 0xF3, 0xF5, 0xF6, 0xF9, 0xFA, 0xFD, 0xFF]);
        assert_eq!(taken(Cpu { status, e: 1, ..Cpu::default() }), [0xF0, 0xF2, 0xF4, 0xF7, 0xF8, 0xFA, 0xFD, 0xFF]);
        let status = Status { ovf: true, msb: true, cy: true, ldz: true, rdz: true, ..Status::default() };
        assert_eq!(taken(Cpu { status, ..Cpu::default() }), [0xF0, 0xF3, 0xF5, 0xF6, 0xF9, 0xFB, 0xFC, 0xFE]);
    }

    #[test]
    fn e_wraps() {
        let mut cpu = Cpu::default();
        carry_out(&mut cpu, &[0x9B]);
        assert_eq!(cpu.e, 15);
        carry_out(&mut cpu, &[0x9C, 0x9C]);
        assert_eq!(cpu.e, 1);
        carry_out(&mut cpu, &[0x9D]);
        assert_eq!(cpu.e, 0);
    }

    #[test]
    fn addresses_wrap() {
        let mut cpu = Cpu { drp: 0o46, ..Cpu::new(0xFFFF, 0xFFFF) };
        let mut memory = Flat::with(0, &[0x34, 0x12, 0x9A]);
        memory.memory[0xFFFF] = 0xA9;
        cpu.execute(&mut memory).unwrap();
        assert_eq!((cpu.registers.pair(0o46), cpu.pc()), (0x1234, 2));
        cpu.execute(&mut memory).unwrap();
        assert_eq!((memory.memory[0xFFFF], memory.memory[0], cpu.return_pointer()), (0, 0o46, 2));
    }
}
