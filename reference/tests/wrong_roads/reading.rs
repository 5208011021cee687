//! The lines one after another, into a table.

use super::faults::Fault;
use super::lines::{numeral, parse, split, Line};
use reference::road::WORDS;

const NONE: u16 = 65535;

struct Reading {
    fault: Option<Fault>,
    /// Points and arcs.
    problem: Option<(u64, u64)>,
    arcs: u64,
    is_out_of_range: bool,
    table: Vec<u16>,
}

/// The answer, and the table as far as it is read.
pub fn read_lines(file: &[u8], fault: Option<Fault>) -> (Result<usize, u32>, Vec<u16>) {
    let rest = match fault {
        Some(Fault::RestIsNone) => NONE,
        _ => 0,
    };
    let mut reading = Reading {
        fault,
        problem: None,
        arcs: 0,
        is_out_of_range: false,
        table: vec![rest; WORDS],
    };
    if file.is_empty() && fault == Some(Fault::EmptyAccepted) {
        return (Ok(1), reading.table);
    }
    let Some(lines) = split(file, fault) else {
        return (Err(21), reading.table);
    };
    let refused = lines.iter().find_map(|line| reading.take(line).err());
    let answer = refused.map_or_else(|| reading.end(), Err);
    let answer = match answer {
        Err(22) if fault == Some(Fault::RangeIsForm) => Err(21),
        answer => answer,
    };
    (answer, reading.table)
}

impl Reading {
    fn is(&self, fault: Fault) -> bool {
        self.fault == Some(fault)
    }

    fn take(&mut self, line: &[u8]) -> Result<(), u32> {
        match parse(line, self.problem.is_some(), self.fault) {
            None if self.is(Fault::RangeBeforeForm) && self.has_end_outside(line) => Err(22),
            None => Err(21),
            Some(Line::Comment) => Ok(()),
            Some(Line::Problem(points, arcs)) => self.begin(points, arcs),
            Some(Line::Arc(from, to, length)) => self.arc(from, to, length),
        }
    }

    /// Whether the line begins like an arc with a point out of range.
    fn has_end_outside(&self, line: &[u8]) -> bool {
        let parts: Vec<&[u8]> = line.split(|&byte| byte == b' ').collect();
        let (Some((points, _)), [b"a", from, to, ..]) = (self.problem, &parts[..]) else {
            return false;
        };
        let is_outside = |end: u64| end == 0 || end > points;
        [from, to].map(|end| numeral(end, None).is_some_and(is_outside)) != [false; 2]
    }

    fn begin(&mut self, points: u64, arcs: u64) -> Result<(), u32> {
        if let Some(first) = self.problem {
            return self.again(first, points, arcs);
        }
        let points = match self.fault {
            Some(Fault::PointsIn8Bits) => points & 0xff,
            Some(Fault::PointsIn32Bits) => points & 0xffff_ffff,
            Some(Fault::Points129) if points == 129 => 128,
            _ => points,
        };
        let first = u64::from(!self.is(Fault::Points0));
        let last = if self.is(Fault::Points127) { 127 } else { 128 };
        if points < first || points > last {
            return Err(22);
        }
        let n = points as usize;
        self.table[..n * n].fill(NONE);
        if !self.is(Fault::DiagonalNone) {
            (0..n).for_each(|at| self.table[at * n + at] = 0);
        }
        self.problem = Some((points, arcs));
        Ok(())
    }

    fn again(&mut self, first: (u64, u64), points: u64, arcs: u64) -> Result<(), u32> {
        let is_outside = points == 0 || points > 128;
        match self.fault {
            Some(Fault::SecondSameAllowed) if first == (points, arcs) => Ok(()),
            Some(Fault::SecondReplaces) if !is_outside => {
                self.problem = Some((first.0, arcs));
                Ok(())
            }
            Some(Fault::SecondRangeFirst) if is_outside => Err(22),
            _ => Err(21),
        }
    }

    fn arc(&mut self, from: u64, to: u64, length: u64) -> Result<(), u32> {
        let Some((points, arcs)) = self.problem else {
            return self.early(from, to);
        };
        if is_outside(self.fault, points, from, to) {
            if !self.is(Fault::RangeAtEnd) {
                return Err(22);
            }
            self.is_out_of_range = true;
        }
        self.arcs += u64::from(from != to || !self.is(Fault::OwnArcUncounted));
        if self.is(Fault::CountAtOnce) && self.arcs > arcs {
            return Err(23);
        }
        let [from, to] = [from, to].map(|end| (end & 0xffff).wrapping_sub(1));
        if from.max(to) < points {
            self.write(points as usize, from as usize, to as usize, length);
        }
        Ok(())
    }

    fn early(&mut self, from: u64, to: u64) -> Result<(), u32> {
        let is_outside = from.min(to) == 0 || from.max(to) > 128;
        match self.fault {
            Some(Fault::EarlyArcAllowed) => {
                self.arcs += 1;
                Ok(())
            }
            Some(Fault::EarlyArcRangeFirst) if is_outside => Err(22),
            _ => Err(21),
        }
    }

    fn write(&mut self, points: usize, from: usize, to: usize, length: u64) {
        if from == to && !self.is(Fault::OwnArcStands) {
            return;
        }
        let Some(length) = held(self.fault, length) else {
            return;
        };
        let at = match self.fault {
            Some(Fault::Transposed) => to * points + from,
            Some(Fault::StrideOf128) => from * 128 + to,
            _ => from * points + to,
        };
        let old = self.table[at];
        self.table[at] = match self.fault {
            Some(Fault::LastStands | Fault::OwnArcStands) => length,
            Some(Fault::FirstStands) if old != NONE => old,
            Some(Fault::LongestStands) if old != NONE => old.max(length),
            _ => old.min(length),
        };
        if self.is(Fault::BothWays) {
            self.table[to * points + from] = self.table[at];
        }
    }

    fn end(&self) -> Result<usize, u32> {
        let Some((points, arcs)) = self.problem else {
            let is_count = self.is(Fault::NoProblemIsCount);
            return Err(if is_count { 23 } else { 21 });
        };
        if self.is_out_of_range {
            return Err(22);
        }
        let holds = match self.fault {
            Some(Fault::CountUntested) => true,
            Some(Fault::CountAtMost) => self.arcs <= arcs,
            Some(Fault::CountAtLeast) => self.arcs >= arcs,
            Some(Fault::CountIn8Bits) => self.arcs & 0xff == arcs & 0xff,
            Some(Fault::CountIn16Bits) => self.arcs & 0xffff == arcs & 0xffff,
            Some(Fault::CountIn32Bits) => self.arcs & 0xffff_ffff == arcs & 0xffff_ffff,
            _ => self.arcs == arcs,
        };
        holds.then_some(points as usize).ok_or(23)
    }
}

fn is_outside(fault: Option<Fault>, points: u64, from: u64, to: u64) -> bool {
    let outside = |end: u64| match fault {
        Some(Fault::Point0Allowed) => end > points,
        Some(Fault::OnePointMore) => end == 0 || end > points + 1,
        Some(Fault::PointIn16Bits) => end & 0xffff == 0 || end & 0xffff > points,
        Some(Fault::PointIn32Bits) => end & 0xffff_ffff == 0 || end & 0xffff_ffff > points,
        _ => end == 0 || end > points,
    };
    match fault {
        Some(Fault::OwnArcUntested) if from == to => false,
        Some(Fault::FromUntested) => outside(to),
        Some(Fault::ToUntested) => outside(from),
        _ => outside(from) || outside(to),
    }
}

/// The word of a length, and nothing where the arc is passed over.
fn held(fault: Option<Fault>, length: u64) -> Option<u16> {
    let word = match fault {
        Some(Fault::ZeroIsNone) if length == 0 => return None,
        Some(Fault::LowBitsStand) => length as u16,
        Some(Fault::LengthIn32Bits) => (length & 0xffff_ffff).min(65534) as u16,
        Some(Fault::HeldAt65533) => length.min(65533) as u16,
        Some(Fault::HeldAt65535) => length.min(65535) as u16,
        _ => length.min(65534) as u16,
    };
    Some(word)
}
