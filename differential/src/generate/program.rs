//! Random programs, made directly rather than by lowering: every instruction
//! and terminator, values used before their definition, any id.

use super::rng::Rng;
use crate::ir::{
    BasicBlock, BlockId, ContextKind, FunctionId, InstrNode, Instruction, IrFunction, IrProgram,
    IrType, LocalId, Terminator, ValueId,
};
use crate::names::text;
use crate::sheet::kind::*;

/// A function under way. Its values are all planned before the first operand
/// is chosen, since a definition anywhere in the function counts.
struct Maker<'a> {
    rng: &'a mut Rng,
    /// One choice in this many is a mistake; 0 for none.
    slip: usize,
    values: Vec<(ValueId, IrType)>,
    locals: Vec<IrType>,
    blocks: Vec<BlockId>,
    functions: Vec<FunctionId>,
    returns: IrType,
}

/// An instruction without its operands.
struct Plan {
    kind: u16,
    ty: IrType,
    result: Option<ValueId>,
}

/// A random program; most have few mistakes or none.
pub fn program(rng: &mut Rng) -> IrProgram {
    let slip = rng.pick(&[0, 0, 60, 60, 60, 8]);
    let count = rng.pick(&[0, 1, 1, 1, 2, 3]);
    let mut functions: Vec<FunctionId> = (0..count).map(FunctionId).collect();
    if count > 1 && rng.one_in(6) {
        functions[0] = functions[1];
    }
    let mut program = IrProgram::default();
    for &id in &functions {
        let mut maker = Maker {
            returns: ir_type(rng),
            rng: &mut *rng,
            slip,
            values: Vec::new(),
            locals: Vec::new(),
            blocks: Vec::new(),
            functions: functions.clone(),
        };
        let function = maker.function(id);
        program.function_names.insert(function.name.clone(), id);
        program.functions.push(function);
    }
    program
}

fn ir_type(rng: &mut Rng) -> IrType {
    match rng.below(12) {
        0..=4 => IrType::U64,
        5..=7 => IrType::Bool,
        8 => IrType::Field,
        9 | 10 => IrType::Struct(text(rng.pick(&[0, 4, 10, 30]))),
        _ => IrType::Void,
    }
}

/// Whether an instruction of this kind gives a result.
fn gives_result(kind: u16, ty: &IrType) -> bool {
    match kind {
        STORE | STATE_WRITE | WRITE_LOCAL | ASSERT | IR_EMIT => false,
        IR_CALL => *ty != IrType::Void,
        _ => true,
    }
}

/// The type of the result of an instruction of this kind and own type.
fn result_type(kind: u16, ty: &IrType) -> IrType {
    match kind {
        IR_EQ..=GE => IrType::Bool,
        POSEIDON | CONTEXT_READ => IrType::U64,
        _ => ty.clone(),
    }
}

impl Maker<'_> {
    fn slips(&mut self) -> bool {
        self.slip > 0 && self.rng.one_in(self.slip)
    }

    fn function(&mut self, id: FunctionId) -> IrFunction {
        let mut params = Vec::new();
        for _ in 0..self.rng.below(4) {
            let ty = ir_type(self.rng);
            params.push((self.new_value(ty.clone()), ty));
        }
        let locals = self.rng.below(4);
        self.locals = (0..locals).map(|_| ir_type(self.rng)).collect();
        for position in 0..self.rng.pick(&[0, 1, 1, 2, 3, 4]) {
            let id = if self.slips() {
                self.rng.below(4) as u32
            } else {
                position
            };
            self.blocks.push(BlockId(id));
        }
        let plans: Vec<Vec<Plan>> = (0..self.blocks.len()).map(|_| self.plans()).collect();
        let blocks = plans.into_iter().enumerate();
        let blocks = blocks
            .map(|(position, plans)| self.block(self.blocks[position], plans))
            .collect();
        IrFunction {
            id,
            name: text(self.rng.pick(&[11, 11, 12, 0, 65_534])),
            params,
            ret_ty: self.returns.clone(),
            blocks,
            locals: self.locals.clone(),
        }
    }

    /// Defines a value: mostly the next one, by mistake one that may exist.
    fn new_value(&mut self, ty: IrType) -> ValueId {
        let next = match self.values.last() {
            Some((last, _)) => last.0.min(65_000) + self.rng.pick(&[1, 1, 1, 1, 2, 250]),
            None => self.rng.pick(&[0, 0, 0, 1, 255, 65_000]),
        };
        let id = if self.slips() {
            self.rng.below(8) as u32
        } else {
            next
        };
        self.values.push((ValueId(id), ty));
        ValueId(id)
    }

    fn plans(&mut self) -> Vec<Plan> {
        (0..self.rng.below(8)).map(|_| self.plan()).collect()
    }

    fn plan(&mut self) -> Plan {
        let kind = self.kind();
        let ty = match kind {
            ADD..=GE if !self.values.is_empty() => {
                self.values[self.rng.below(self.values.len())].1.clone()
            }
            _ => ir_type(self.rng),
        };
        let gives = gives_result(kind, &ty) != self.slips();
        let absent = self.rng.one_in(15);
        let result = (gives && !absent).then(|| self.new_value(result_type(kind, &ty)));
        Plan { kind, ty, result }
    }

    /// A kind whose operands can be had.
    fn kind(&mut self) -> u16 {
        let kind = self.rng.between(CONST as usize, CONTEXT_READ as usize) as u16;
        let local = matches!(kind, READ_LOCAL | WRITE_LOCAL) && self.locals.is_empty();
        match (local || self.values.is_empty()) && !self.slips() {
            true => self.rng.pick(&[CONST, STATE_READ, CONTEXT_READ]),
            false => kind,
        }
    }

    fn block(&mut self, id: BlockId, plans: Vec<Plan>) -> BasicBlock {
        let mut instrs = Vec::new();
        for plan in plans {
            instrs.push(InstrNode {
                result: plan.result,
                instr: self.instruction(plan.kind, plan.ty),
            });
        }
        let terminator = if self.slips() {
            None
        } else {
            Some(self.terminator())
        };
        BasicBlock {
            id,
            instrs,
            terminator,
        }
    }

    /// A value of the type, if there is one and no mistake shall be made.
    fn value(&mut self, ty: &IrType) -> ValueId {
        if self.slips() {
            return ValueId(u32::from(self.rng.edge_u16().min(65_534)));
        }
        let fitting: Vec<ValueId> = self
            .values
            .iter()
            .filter(|v| v.1 == *ty)
            .map(|v| v.0)
            .collect();
        match fitting.is_empty() || self.slips() {
            true => self.any_value(),
            false => self.rng.pick(&fitting),
        }
    }

    fn any_value(&mut self) -> ValueId {
        match self.values.is_empty() {
            true => ValueId(0),
            false => self.values[self.rng.below(self.values.len())].0,
        }
    }

    fn any_values(&mut self) -> Vec<ValueId> {
        (0..self.rng.below(4)).map(|_| self.any_value()).collect()
    }

    fn local(&mut self) -> LocalId {
        match self.locals.is_empty() || self.slips() {
            true => LocalId(self.rng.below(6) as u32),
            false => LocalId(self.rng.below(self.locals.len()) as u32),
        }
    }

    fn block_id(&mut self) -> BlockId {
        match self.slips() {
            true => BlockId(u32::from(self.rng.edge_u16().min(65_534))),
            false => self.rng.pick(&self.blocks),
        }
    }

    fn function_id(&mut self) -> FunctionId {
        match self.slips() {
            true => FunctionId(self.rng.below(5) as u32),
            false => self.rng.pick(&self.functions),
        }
    }

    fn instruction(&mut self, kind: u16, ty: IrType) -> Instruction {
        match kind {
            CONST => Instruction::Const {
                ty,
                value: self.rng.edge_u64(),
            },
            ADD..=GE => self.binary(kind, ty),
            LOAD..=WRITE_LOCAL => self.memory(kind, ty),
            IR_CALL => Instruction::Call {
                function: self.function_id(),
                args: self.any_values(),
                ret_ty: ty,
            },
            ASSERT => Instruction::Assert {
                condition: self.any_value(),
            },
            POSEIDON => Instruction::Poseidon {
                lhs: self.value(&IrType::U64),
                rhs: self.value(&ty),
            },
            IR_EMIT => Instruction::Emit {
                event_name: text(self.rng.pick(&[0, 5, 40, 65_534])),
                args: self.any_values(),
            },
            _ => Instruction::ContextRead {
                kind: self.context(),
            },
        }
    }

    fn context(&mut self) -> ContextKind {
        match self.rng.below(3) {
            0 => ContextKind::Sender,
            1 => ContextKind::Nonce,
            _ => ContextKind::BlockHeight,
        }
    }

    fn binary(&mut self, kind: u16, own: IrType) -> Instruction {
        // Operands of the own type are not always there; the own type of a
        // comparison may follow its left operand, as in a lowered program.
        let lhs = self.value(&own);
        let known = self.values.iter().find(|v| v.0 == lhs).map(|v| v.1.clone());
        let ty = match known {
            Some(left) if kind >= IR_EQ => left,
            _ => own,
        };
        let rhs = self.value(&ty);
        match kind {
            ADD => Instruction::Add { ty, lhs, rhs },
            SUB => Instruction::Sub { ty, lhs, rhs },
            MUL => Instruction::Mul { ty, lhs, rhs },
            DIV => Instruction::Div { ty, lhs, rhs },
            IR_EQ => Instruction::IrEq { ty, lhs, rhs },
            IR_NE => Instruction::IrNe { ty, lhs, rhs },
            LT => Instruction::Lt { ty, lhs, rhs },
            LE => Instruction::Le { ty, lhs, rhs },
            GT => Instruction::Gt { ty, lhs, rhs },
            _ => Instruction::Ge { ty, lhs, rhs },
        }
    }

    fn memory(&mut self, kind: u16, ty: IrType) -> Instruction {
        match kind {
            LOAD => Instruction::Load {
                base: self.value(&ty),
                ty,
                offset: self.rng.edge_u64() as i64,
            },
            STORE => Instruction::Store {
                base: self.value(&ty),
                offset: self.rng.edge_u64() as i64,
                value: self.any_value(),
            },
            STATE_READ => Instruction::StateRead {
                ty,
                slot: self.rng.edge_u64() as i32,
            },
            STATE_WRITE => Instruction::StateWrite {
                slot: self.rng.edge_u64() as i32,
                value: self.value(&ty),
            },
            READ_LOCAL => Instruction::ReadLocal {
                local: self.local(),
                ty,
            },
            _ => Instruction::WriteLocal {
                local: self.local(),
                value: self.value(&ty),
            },
        }
    }

    fn terminator(&mut self) -> Terminator {
        match self.rng.below(4) {
            0 => Terminator::Jump(self.block_id()),
            1 if self.values.iter().any(|v| v.1 == IrType::Bool) || self.slips() => {
                Terminator::Branch {
                    condition: self.value(&IrType::Bool),
                    then_block: self.block_id(),
                    else_block: self.block_id(),
                }
            }
            2 if self.returns == IrType::Void => Terminator::Return(None),
            2 => {
                let wanted = self.returns.clone();
                let fitting = self.values.iter().any(|v| v.1 == wanted);
                match fitting || self.slips() {
                    true => Terminator::Return(Some(self.value(&wanted))),
                    false => Terminator::Unreachable,
                }
            }
            _ => Terminator::Unreachable,
        }
    }
}
