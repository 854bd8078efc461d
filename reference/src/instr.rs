//! The instructions, and the form of each: its number in an image, its word in a text, and its
//! operands.

#[derive(Clone, Copy, PartialEq, Eq)]
pub enum Op {
    Const, Mov, Clear, Add, Sub, Jz, Jlt, Jmp, Loop, End, Load, Store, Loadp, Storep, Get, Put,
    Mark, Acquire, Release, Acqc, Relc, Insert, Remove, Unlink, Arm, Disarm, Ifcancel, Start, Take,
    Begin, Next, Pass, Call, Complete, Ifpending, Ret, Dequeue,
}

/// What an operand names. A label, a constant and turns are wide: four bytes of an image. A call
/// names a completion routine or none; a return has a form, and perhaps a status or a register.
#[derive(Clone, Copy, PartialEq, Eq)]
pub enum Operand {
    Register, Lock, Cell, Paged, Queue, Field, Status, Completion, Return, Label, Constant, Turns,
}

/// An instruction: its operands of one byte in the order of the text, and its wide one.
#[derive(Clone, Copy, PartialEq, Eq)]
pub struct Instr {
    pub op: Op,
    pub operands: [u8; 3],
    pub wide: u32,
}

pub struct Form {
    pub op: Op,
    pub word: &'static str,
    pub operands: &'static [Operand],
}

/// No routine, in an image and in the operand of a call.
pub const NONE: u8 = 0xFF;

/// The forms of a return, by their numbers.
pub const WITH_STATUS: u8 = 0;
pub const LOWER: u8 = 1;
pub const CONTINUE: u8 = 2;
pub const STOP: u8 = 3;
pub const VOID: u8 = 4;

/// The words of the forms of a return; that with a status has none.
pub const RETURNS: [&str; 5] = ["", "lower", "continue", "stop", "void"];

pub const STATUSES: [(&str, u32); 7] = [
    ("SUCCESS", 0x0000_0000),
    ("PENDING", 0x0000_0103),
    ("BUSY", 0x8000_0011),
    ("UNSUCCESSFUL", 0xC000_0001),
    ("INVALID_PARAMETER", 0xC000_000D),
    ("INVALID_DEVICE_REQUEST", 0xC000_0010),
    ("CANCELLED", 0xC000_0120),
];
pub const PENDING: u8 = 1;
pub const INVALID_DEVICE_REQUEST: u8 = 5;

/// The major functions, with their codes.
pub const MAJORS: [(&str, u64); 3] = [("READ", 3), ("WRITE", 4), ("CONTROL", 14)];

pub const FIELDS: [&str; 3] = ["MAJOR", "ARG", "INFO"];
pub const MAJOR: u8 = 0;
pub const ARG: u8 = 1;

const fn form(op: Op, word: &'static str, operands: &'static [Operand]) -> Form {
    Form { op, word, operands }
}

use Operand::*;

/// The form of each instruction, in the order of their numbers, from 1.
pub const FORMS: [Form; 37] = [
    form(Op::Const, "const", &[Register, Constant]),
    form(Op::Mov, "mov", &[Register, Register]),
    form(Op::Clear, "clear", &[Register]),
    form(Op::Add, "add", &[Register, Register]),
    form(Op::Sub, "sub", &[Register, Register]),
    form(Op::Jz, "jz", &[Register, Label]),
    form(Op::Jlt, "jlt", &[Register, Register, Label]),
    form(Op::Jmp, "jmp", &[Label]),
    form(Op::Loop, "loop", &[Turns]),
    form(Op::End, "end", &[]),
    form(Op::Load, "load", &[Register, Cell]),
    form(Op::Store, "store", &[Cell, Register]),
    form(Op::Loadp, "loadp", &[Register, Paged]),
    form(Op::Storep, "storep", &[Paged, Register]),
    form(Op::Get, "get", &[Register, Register, Field]),
    form(Op::Put, "put", &[Register, Register]),
    form(Op::Mark, "mark", &[Register]),
    form(Op::Acquire, "acquire", &[Lock]),
    form(Op::Release, "release", &[Lock]),
    form(Op::Acqc, "acqc", &[]),
    form(Op::Relc, "relc", &[]),
    form(Op::Insert, "insert", &[Register, Queue]),
    form(Op::Remove, "remove", &[Register, Queue, Label]),
    form(Op::Unlink, "unlink", &[Register, Queue]),
    form(Op::Arm, "arm", &[Register, Queue]),
    form(Op::Disarm, "disarm", &[Register, Label]),
    form(Op::Ifcancel, "ifcancel", &[Register, Label]),
    form(Op::Start, "start", &[Register]),
    form(Op::Take, "take", &[Register, Label]),
    form(Op::Begin, "begin", &[Register]),
    form(Op::Next, "next", &[]),
    form(Op::Pass, "pass", &[Register]),
    form(Op::Call, "call", &[Register, Completion]),
    form(Op::Complete, "complete", &[Register, Status]),
    form(Op::Ifpending, "ifpending", &[Register, Label]),
    form(Op::Ret, "ret", &[Return]),
    form(Op::Dequeue, "dequeue", &[Register]),
];

impl Form {
    pub fn of_word(word: &str) -> Option<&'static Form> {
        FORMS.iter().find(|form| form.word == word)
    }

    pub fn of_number(number: u8) -> Option<&'static Form> {
        FORMS.get(usize::from(number).checked_sub(1)?)
    }
}

impl Instr {
    pub fn new(op: Op) -> Instr {
        Instr { op, operands: [0; 3], wide: 0 }
    }

    pub fn number(&self) -> u8 {
        1 + FORMS.iter().position(|form| form.op == self.op).unwrap_or(0) as u8
    }

    pub fn form(&self) -> &'static Form {
        &FORMS[usize::from(self.number()) - 1]
    }

    /// The position to which it jumps, if it does.
    pub fn label(&self) -> Option<usize> {
        self.form().operands.contains(&Label).then_some(self.wide as usize)
    }

    /// The completion routine that a call sets.
    pub fn completion(&self) -> Option<u8> {
        (self.operands[1] != NONE).then_some(self.operands[1])
    }
}

impl Operand {
    pub fn is_wide(self) -> bool {
        matches!(self, Label | Constant | Turns)
    }
}
