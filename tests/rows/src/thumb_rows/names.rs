// Instructions by their names.

use thumb_code::Instr;

/// An instruction's name, its fields of a byte in their order, 0 for those that it hasn't, and its offset, 0 where it has none.
pub struct Named {
    pub name: &'static str,
    pub fields: (u8, u8, u8),
    pub offset: i32,
}

fn three(name: &'static str, a: u8, b: u8, c: u8) -> Named {
    Named {
        name,
        fields: (a, b, c),
        offset: 0,
    }
}

fn two(name: &'static str, a: u8, b: u8) -> Named {
    three(name, a, b, 0)
}

fn branch(name: &'static str, condition: u8, offset: i32) -> Named {
    Named {
        name,
        fields: (condition, 0, 0),
        offset,
    }
}

/// The name and the fields of an instruction.
pub fn name_of(instr: Instr) -> Named {
    match instr {
        Instr::LslImm { rd, rm, imm } => three("LslImm", rd, rm, imm),
        Instr::LsrImm { rd, rm, imm } => three("LsrImm", rd, rm, imm),
        Instr::AsrImm { rd, rm, imm } => three("AsrImm", rd, rm, imm),
        Instr::AddReg { rd, rn, rm } => three("AddReg", rd, rn, rm),
        Instr::SubReg { rd, rn, rm } => three("SubReg", rd, rn, rm),
        Instr::AddImm3 { rd, rn, imm } => three("AddImm3", rd, rn, imm),
        Instr::SubImm3 { rd, rn, imm } => three("SubImm3", rd, rn, imm),
        Instr::MovImm { rd, imm } => two("MovImm", rd, imm),
        Instr::CmpImm { rd, imm } => two("CmpImm", rd, imm),
        Instr::AddImm8 { rd, imm } => two("AddImm8", rd, imm),
        Instr::SubImm8 { rd, imm } => two("SubImm8", rd, imm),
        Instr::And { rdn, rm } => two("And", rdn, rm),
        Instr::Eor { rdn, rm } => two("Eor", rdn, rm),
        Instr::LslReg { rdn, rm } => two("LslReg", rdn, rm),
        Instr::LsrReg { rdn, rm } => two("LsrReg", rdn, rm),
        Instr::AsrReg { rdn, rm } => two("AsrReg", rdn, rm),
        Instr::Adc { rdn, rm } => two("Adc", rdn, rm),
        Instr::Sbc { rdn, rm } => two("Sbc", rdn, rm),
        Instr::Ror { rdn, rm } => two("Ror", rdn, rm),
        Instr::Tst { rdn, rm } => two("Tst", rdn, rm),
        Instr::Rsb { rdn, rm } => two("Rsb", rdn, rm),
        Instr::CmpReg { rdn, rm } => two("CmpReg", rdn, rm),
        Instr::Cmn { rdn, rm } => two("Cmn", rdn, rm),
        Instr::Orr { rdn, rm } => two("Orr", rdn, rm),
        Instr::Mul { rdn, rm } => two("Mul", rdn, rm),
        Instr::Bic { rdn, rm } => two("Bic", rdn, rm),
        Instr::Mvn { rdn, rm } => two("Mvn", rdn, rm),
        Instr::AddHigh { rd, rm } => two("AddHigh", rd, rm),
        Instr::CmpHigh { rd, rm } => two("CmpHigh", rd, rm),
        Instr::MovHigh { rd, rm } => two("MovHigh", rd, rm),
        Instr::Bx { rm } => two("Bx", rm, 0),
        Instr::Blx { rm } => two("Blx", rm, 0),
        Instr::LdrPc { rt, imm } => two("LdrPc", rt, imm),
        Instr::StrReg { rt, rn, rm } => three("StrReg", rt, rn, rm),
        Instr::StrhReg { rt, rn, rm } => three("StrhReg", rt, rn, rm),
        Instr::StrbReg { rt, rn, rm } => three("StrbReg", rt, rn, rm),
        Instr::Ldrsb { rt, rn, rm } => three("Ldrsb", rt, rn, rm),
        Instr::LdrReg { rt, rn, rm } => three("LdrReg", rt, rn, rm),
        Instr::LdrhReg { rt, rn, rm } => three("LdrhReg", rt, rn, rm),
        Instr::LdrbReg { rt, rn, rm } => three("LdrbReg", rt, rn, rm),
        Instr::Ldrsh { rt, rn, rm } => three("Ldrsh", rt, rn, rm),
        Instr::StrImm { rt, rn, imm } => three("StrImm", rt, rn, imm),
        Instr::LdrImm { rt, rn, imm } => three("LdrImm", rt, rn, imm),
        Instr::StrbImm { rt, rn, imm } => three("StrbImm", rt, rn, imm),
        Instr::LdrbImm { rt, rn, imm } => three("LdrbImm", rt, rn, imm),
        Instr::StrhImm { rt, rn, imm } => three("StrhImm", rt, rn, imm),
        Instr::LdrhImm { rt, rn, imm } => three("LdrhImm", rt, rn, imm),
        Instr::StrSp { rt, imm } => two("StrSp", rt, imm),
        Instr::LdrSp { rt, imm } => two("LdrSp", rt, imm),
        Instr::Adr { rd, imm } => two("Adr", rd, imm),
        Instr::AddSp { rd, imm } => two("AddSp", rd, imm),
        Instr::AddSpImm { imm } => two("AddSpImm", imm, 0),
        Instr::SubSpImm { imm } => two("SubSpImm", imm, 0),
        Instr::Sxth { rd, rm } => two("Sxth", rd, rm),
        Instr::Sxtb { rd, rm } => two("Sxtb", rd, rm),
        Instr::Uxth { rd, rm } => two("Uxth", rd, rm),
        Instr::Uxtb { rd, rm } => two("Uxtb", rd, rm),
        Instr::Push { list, m } => two("Push", list, u8::from(m)),
        Instr::Pop { list, p } => two("Pop", list, u8::from(p)),
        Instr::Rev { rd, rm } => two("Rev", rd, rm),
        Instr::Rev16 { rd, rm } => two("Rev16", rd, rm),
        Instr::Revsh { rd, rm } => two("Revsh", rd, rm),
        Instr::Bkpt { imm } => two("Bkpt", imm, 0),
        Instr::Nop => two("Nop", 0, 0),
        Instr::Yield => two("Yield", 0, 0),
        Instr::Wfe => two("Wfe", 0, 0),
        Instr::Wfi => two("Wfi", 0, 0),
        Instr::Sev => two("Sev", 0, 0),
        Instr::Stm { rn, list } => two("Stm", rn, list),
        Instr::Ldm { rn, list } => two("Ldm", rn, list),
        Instr::BCond { cond, offset } => branch("BCond", cond, offset),
        Instr::Udf { imm } => two("Udf", imm, 0),
        Instr::Svc { imm } => two("Svc", imm, 0),
        Instr::B { offset } => branch("B", 0, offset),
        Instr::Bl { offset } => branch("Bl", 0, offset),
    }
}
