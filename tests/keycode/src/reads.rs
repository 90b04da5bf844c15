//! Four bytes in a row that one place of a function reads.

use crate::listing::{ByteRead, Function, Instruction};

/// The four reads lie among so many instructions.
const REACH: usize = 64;

pub struct FourReads<'a> {
    pub function: &'a Function,
    /// The instructions that read them, by the place of the byte.
    at: [usize; 4],
}

/// All of a function.
pub fn four_reads(function: &Function) -> Vec<FourReads<'_>> {
    (0..function.instructions.len()).filter_map(|at| from_lowest(function, at)).collect()
}

/// Those whose first byte is read at `lowest`.
fn from_lowest(function: &Function, lowest: usize) -> Option<FourReads<'_>> {
    let ByteRead { registers, displacement } = function.instructions[lowest].byte_read()?;
    let nearest = |k| {
        let wanted = ByteRead { registers, displacement: displacement + k };
        let from = lowest.saturating_sub(REACH);
        let to = function.instructions.len().min(lowest + REACH);
        (from..to)
            .filter(|&at| function.instructions[at].byte_read().as_ref() == Some(&wanted))
            .min_by_key(|&at| at.abs_diff(lowest))
    };
    Some(FourReads { function, at: [lowest, nearest(1)?, nearest(2)?, nearest(3)?] })
}

impl<'a> FourReads<'a> {
    /// The instruction that reads the byte of this place, and its displacement.
    pub fn read(&self, place: usize) -> (&'a Instruction, i64) {
        let instruction = &self.function.instructions[self.at[place]];
        let displacement = instruction.byte_read().map_or(0, |read| read.displacement);
        (instruction, displacement)
    }

    /// From the first read to the last one, in the order of the code.
    pub fn stretch(&self) -> &'a [Instruction] {
        let (first, last) =
            self.at.iter().fold((usize::MAX, 0), |(a, b), &at| (a.min(at), b.max(at)));
        &self.function.instructions[first..=last]
    }

    /// The instructions by which this stretch is left before its end, or entered behind its
    /// beginning.
    pub fn breaks(&self) -> Vec<&'a Instruction> {
        let stretch = self.stretch();
        let (first, last) = (stretch[0].address, stretch[stretch.len() - 1].address);
        let leaving = stretch.iter().filter(|i| i.leaves());
        let is_inside = |place: u64| first < place && place <= last;
        let is_outside = |i: &&Instruction| i.address < first || last < i.address;
        let all = self.function.instructions.iter();
        let entering = all.filter(is_outside).filter(|i| i.target().is_some_and(is_inside));
        leaving.chain(entering).collect()
    }
}

#[cfg(test)]
mod tests {
    use super::*;

    fn function(texts: &[&str]) -> Function {
        let instructions = texts.iter().enumerate().map(|(k, text)| Instruction {
            address: 16 * k as u64,
            file_end: None,
            text: text.to_string(),
        });
        Function { name: String::new(), instructions: instructions.collect() }
    }

    fn breaks(texts: &[&str]) -> Vec<Vec<u64>> {
        let addresses = |found: FourReads| found.breaks().iter().map(|i| i.address).collect();
        four_reads(&function(texts)).into_iter().map(addresses).collect()
    }

    const STRAIGHT: [&str; 8] = [
        "cmp    %r8b,(%rax,%rcx,4)",
        "setne  %dl",
        "movzbl 0x1(%rax,%rcx,4),%esi",
        "cmp    %esi,%r8d",
        "cmp    %r8b,0x2(%rax,%rcx,4)",
        "cmp    0x3(%rax,%rcx,4),%r12b",
        "or     %r8,%rdi",
        "je     100 <main+0x100>",
    ];

    #[test]
    fn a_jump_behind_the_last_byte() {
        assert_eq!(breaks(&STRAIGHT), [[0; 0]]);
    }

    #[test]
    fn a_jump_between() {
        for place in [1, 3] {
            let mut code = STRAIGHT;
            code[place] = "jne    100 <main+0x100>";
            assert_eq!(breaks(&code), [[16 * place as u64]]);
        }
    }

    #[test]
    fn a_jump_into_the_middle() {
        let mut code = STRAIGHT;
        code[7] = "jmp    20 <main+0x20>";
        assert_eq!(breaks(&code), [[7 * 16]]);
        code[7] = "jmp    0 <main>";
        assert_eq!(breaks(&code), [[0; 0]]);
    }

    #[test]
    fn the_bytes_in_another_order() {
        let mut code = STRAIGHT;
        code.swap(0, 5);
        assert_eq!(breaks(&code), [[0; 0]]);
        code[2] = "call   100 <main+0x100>";
        code[3] = "movzbl 0x1(%rax,%rcx,4),%esi";
        assert_eq!(breaks(&code), [[32]]);
    }

    #[test]
    fn three_bytes_are_not_four() {
        let mut code = STRAIGHT;
        code[4] = "cmp    %r8b,0x2(%rax,%rdx,4)";
        assert_eq!(breaks(&code), [[0u64; 0]; 0]);
    }
}
