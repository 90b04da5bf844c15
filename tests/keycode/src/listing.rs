//! The machine code of a program, as objdump lists it.

use std::path::Path;
use std::process::Command;

pub struct Instruction {
    pub address: u64,
    /// Where in the file it ends; not known of a function's last one.
    pub file_end: Option<u64>,
    /// Its name and operands, in AT&T's order.
    pub text: String,
}

pub struct Function {
    pub name: String,
    pub instructions: Vec<Instruction>,
}

/// One byte of memory that is read: a number behind the registers which make its address.
#[derive(Debug, PartialEq)]
pub struct ByteRead<'a> {
    pub registers: &'a str,
    pub displacement: i64,
}

pub fn disassemble(program: &Path) -> Result<Vec<Function>, String> {
    let arguments = ["--disassemble", "--wide", "--file-offsets", "--no-show-raw-insn"];
    let output = Command::new("objdump").args(arguments).arg(program).output();
    let output = output.map_err(|reason| format!("objdump: {reason}"))?;
    if !output.status.success() {
        return Err(String::from_utf8_lossy(&output.stderr).into_owned());
    }
    let functions = parse(&String::from_utf8_lossy(&output.stdout));
    match functions.is_empty() {
        true => Err("objdump lists no function".to_string()),
        false => Ok(functions),
    }
}

fn parse(listing: &str) -> Vec<Function> {
    listing.split("\n\n").filter_map(|part| function(part.trim_start())).collect()
}

/// `ADDRESS <NAME> (File Offset: OFFSET):`, and a line for each instruction.
fn function(part: &str) -> Option<Function> {
    let (header, lines) = part.split_once('\n')?;
    let (address, rest) = header.split_once(" <")?;
    let (name, rest) = rest.split_once("> (File Offset: 0x")?;
    let offset = number(rest.strip_suffix("):")?)?;
    let start = number(address)?;
    let lines: Vec<(u64, &str)> = lines.lines().filter_map(instruction).collect();
    let instructions = lines.iter().enumerate().map(|(k, (address, text))| Instruction {
        address: *address,
        file_end: lines.get(k + 1).map(|next| next.0 - start + offset),
        text: text.to_string(),
    });
    Some(Function { name: name.to_string(), instructions: instructions.collect() })
}

/// `ADDRESS:`, and the instruction.
fn instruction(line: &str) -> Option<(u64, &str)> {
    let (address, text) = line.split_once(":\t")?;
    let text = text.split(" (File Offset").next()?;
    Some((number(address.trim())?, text.trim()))
}

fn number(hex: &str) -> Option<u64> {
    u64::from_str_radix(hex, 16).ok()
}

impl Instruction {
    fn name(&self) -> &str {
        self.text.split(' ').next().unwrap_or(&self.text)
    }

    /// Whether the next instruction need not be the one behind it.
    pub fn leaves(&self) -> bool {
        let name = self.name();
        name.starts_with('j') || ["call", "ret", "loop", "rep"].iter().any(|n| name.starts_with(n))
    }

    /// Where it goes, if it goes to a fixed place.
    pub fn target(&self) -> Option<u64> {
        let place = self.text.split_whitespace().nth(1)?;
        number(place).filter(|_| self.leaves())
    }

    pub fn byte_read(&self) -> Option<ByteRead<'_>> {
        let (name, operands) = self.text.split_once(' ')?;
        let operands = operands.trim().split(" #").next()?;
        let open = operands.find('(')?;
        let close = open + operands[open..].find(')')? + 1;
        let before = &operands[..open];
        let start = before.rfind([',', ' ', ':']).map_or(0, |at| at + 1);
        let others = [&operands[..start], &operands[close..]];
        let is_byte = ["movzb", "movsb", "cmpb", "testb"].iter().any(|n| name.starts_with(n))
            || others.iter().any(|other| other.split(',').any(is_byte_register));
        let is_read = start == 0 || name.starts_with("cmp") || name.starts_with("test");
        let registers = &operands[open..close];
        let displacement = displacement(&before[start..])?;
        let fixed = registers.contains("%rip");
        (is_byte && is_read && !fixed).then_some(ByteRead { registers, displacement })
    }
}

/// `0x3`, `-0x3` or nothing.
fn displacement(text: &str) -> Option<i64> {
    let (sign, digits) = text.strip_prefix('-').map_or((1, text), |digits| (-1, digits));
    match digits {
        "" => Some(0),
        _ => Some(sign * i64::from_str_radix(digits.strip_prefix("0x")?, 16).ok()?),
    }
}

/// `%al`, `%sil`, `%r12b` and the like.
fn is_byte_register(operand: &str) -> bool {
    let name = operand.trim();
    match name.strip_prefix("%r") {
        Some(rest) => rest.ends_with('b'),
        None => name.starts_with('%') && (name.ends_with('l') || name.ends_with('h')),
    }
}

#[cfg(test)]
mod tests {
    use super::*;

    fn read(text: &str) -> Option<(String, i64)> {
        let instruction = Instruction { address: 0, file_end: None, text: text.to_string() };
        instruction.byte_read().map(|read| (read.registers.to_string(), read.displacement))
    }

    #[test]
    fn bytes_that_are_read() {
        let at = |displacement| Some(("(%rax,%rcx,4)".to_string(), displacement));
        assert_eq!(read("cmp    %r8b,(%rax,%rcx,4)"), at(0));
        assert_eq!(read("cmp    0x3(%rax,%rcx,4),%r12b"), at(3));
        assert_eq!(read("movzbl 0x1(%rax,%rcx,4),%esi"), at(1));
        assert_eq!(read("cmpb   $0x70,0x128(%rax,%rcx,4)"), at(0x128));
        assert_eq!(read("mov    -0x2(%rax,%rcx,4),%sil"), at(-2));
        assert_eq!(read("xor    0x2(%rax,%rcx,4),%al"), at(2));
    }

    #[test]
    fn no_bytes_that_are_read() {
        for text in [
            "mov    %al,0x3(%rsi)",
            "sub    0x3(%rsi),%rax",
            "movb   $0x1,0x3(%rsi)",
            "mov    0x3(%rcx),%ecx",
            "cmp    %esi,%r8d",
            "lea    0x3(%rsi),%rax",
            "setne  0x3(%rsi)",
            "cmpb   $0x0,0x988d(%rip)        # b3f8 <completed.0>",
            "ret",
        ] {
            assert_eq!(read(text), None, "{text}");
        }
    }

    #[test]
    fn a_listing() {
        let listing = "\na:     file format elf64-x86-64\n\n\nDisassembly of section .text:\n\n\
            0000000000001000 <first> (File Offset: 0x800):\n    1000:\tpush   %rbp\n    1001:\tret\n\n\
            0000000000001010 <second::part> (File Offset: 0x810):\n    1010:\tcmp    %al,(%rdi)\n    \
            1012:\tjne    1020 <second::part+0x10> (File Offset: 0x820)\n    1014:\tret\n";
        let functions = parse(listing);
        let names: Vec<&str> = functions.iter().map(|f| f.name.as_str()).collect();
        assert_eq!(names, ["first", "second::part"]);
        let [compare, jump, end] = &functions[1].instructions[..] else { panic!() };
        assert_eq!((compare.address, compare.file_end), (0x1010, Some(0x812)));
        assert_eq!((end.address, end.file_end), (0x1014, None));
        assert!(!compare.leaves() && jump.leaves() && end.leaves());
        assert_eq!((compare.target(), jump.target()), (None, Some(0x1020)));
    }
}
