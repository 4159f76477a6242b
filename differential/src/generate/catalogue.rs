//! One contract and one program that have records of every kind, as sheets to
//! damage field by field.

use crate::ast::{Contract, Stmt};
use crate::build::*;
use crate::ir::{
    BasicBlock, BlockId, ContextKind, FunctionId, InstrNode, Instruction, IrFunction, IrProgram,
    IrType, LocalId, Terminator, ValueId,
};
use crate::names::text;
use crate::sheet::contract_read::operator;

const F: u16 = 11;
const G: u16 = 12;
const X: u16 = 20;
const POINT: u16 = 21;
const S: u16 = 22;
const U64: u16 = 1;

/// A contract of every kind that lowers. Mapping records, struct literals and
/// their fields only come where the lowering does not look.
pub fn contract_of_all_kinds() -> Contract {
    let fields = vec![field(X, U64), field(POINT, POINT)];
    let body = [every_expression(), every_statement(), skipped()].concat();
    let params = [(POINT, POINT), (X, U64)];
    let first = function_of(&params, function(F, Some(U64), body));
    let second = function(G, None, vec![Stmt::Expr(call(G, vec![]))]);
    Contract {
        storage: vec![field(S, U64), field(X, 2)],
        structs: vec![structure(POINT, fields), structure(X, vec![])],
        ..contract(10, vec![first, second])
    }
}

/// A contract of every kind that the body check accepts.
pub fn typed_contract_of_all_kinds() -> Contract {
    let mut contract = contract_of_all_kinds();
    let read = mapping_read(X, int(1));
    let point = literal(POINT, vec![(X, read), (POINT, ident(POINT))]);
    let body = &mut contract.functions[0].body;
    *body = [typed_expressions(), every_statement()].concat();
    body.push(mapping_write(X, point, access(ident(POINT), X)));
    contract
}

fn typed_expressions() -> Vec<Stmt> {
    let compare = |number| binary(ident(X), operator(number), storage_read(S));
    let mut body: Vec<Stmt> = [0, 6, 9].map(|number| Stmt::Expr(compare(number))).to_vec();
    let hash = call(5, vec![call(7, vec![]), ident(X)]);
    body.push(let_(X, access(access(ident(POINT), POINT), X)));
    body.push(Stmt::Expr(call(F, vec![ident(POINT), hash])));
    body
}

fn every_expression() -> Vec<Stmt> {
    let compare = |number| binary(ident(X), operator(number), storage_read(S));
    let mut body: Vec<Stmt> = (0..10).map(|number| Stmt::Expr(compare(number))).collect();
    body.push(let_(X, access(ident(POINT), X)));
    body.push(Stmt::Expr(call(
        F,
        vec![int(1), call(5, vec![int(2), int(3)])],
    )));
    body.push(Stmt::Expr(call(7, vec![mapping_read(X, int(1))])));
    body.push(Stmt::Expr(call(9, vec![literal(POINT, vec![(X, int(1))])])));
    body
}

fn every_statement() -> Vec<Stmt> {
    let test = || binary(ident(X), operator(6), int(10));
    vec![
        assign(X, int(5)),
        Stmt::Constrain(test()),
        storage_write(S, ident(X)),
        Stmt::If(test(), vec![let_(X, test())], None),
        Stmt::If(test(), vec![returning(int(1))], Some(vec![emit(X, vec![])])),
        Stmt::While(test(), vec![assign(X, int(1))]),
        for_(X, int(0), ident(X), vec![emit(S, vec![ident(X)])]),
        Stmt::Expr(call(G, vec![])),
        returning(ident(X)),
    ]
}

fn skipped() -> Vec<Stmt> {
    vec![
        Stmt::Return(None),
        mapping_write(X, literal(POINT, vec![]), mapping_read(S, int(1))),
    ]
}

/// A program of every kind that the verifier accepts.
pub fn program_of_all_kinds() -> IrProgram {
    let first = IrFunction {
        id: FunctionId(0),
        name: text(F),
        params: vec![
            (ValueId(0), IrType::U64),
            (ValueId(1), IrType::Bool),
            (ValueId(2), point()),
        ],
        ret_ty: IrType::U64,
        blocks: blocks(),
        locals: vec![IrType::U64, IrType::Field],
    };
    let second = IrFunction {
        id: FunctionId(1),
        name: text(G),
        params: vec![(ValueId(7), IrType::Void)],
        ret_ty: IrType::Void,
        blocks: vec![block(5, vec![], Terminator::Return(None))],
        locals: vec![],
    };
    let functions = vec![first, second];
    let names = functions.iter().map(|f| (f.name.clone(), f.id));
    IrProgram {
        function_names: names.collect(),
        functions,
    }
}

fn point() -> IrType {
    IrType::Struct(text(POINT))
}

fn block(id: u32, instrs: Vec<InstrNode>, terminator: Terminator) -> BasicBlock {
    BasicBlock {
        id: BlockId(id),
        instrs,
        terminator: Some(terminator),
    }
}

fn blocks() -> Vec<BasicBlock> {
    let branch = Terminator::Branch {
        condition: ValueId(1),
        then_block: BlockId(1),
        else_block: BlockId(2),
    };
    vec![
        block(0, numbered(values(), 3), branch),
        block(1, numbered(effects(), 40), Terminator::Jump(BlockId(2))),
        block(2, vec![], Terminator::Return(Some(ValueId(3)))),
        block(3, vec![], Terminator::Unreachable),
    ]
}

/// Gives results, from the first id on, to those that have one.
fn numbered(instructions: Vec<Instruction>, first: u32) -> Vec<InstrNode> {
    let numbered = instructions.into_iter().zip(first..);
    numbered
        .map(|(instr, id)| InstrNode {
            result: instr.result_type().map(|_| ValueId(id)),
            instr,
        })
        .collect()
}

/// The instructions on two numbers, which follow the one that gives value 3.
fn values() -> Vec<Instruction> {
    let ty = IrType::U64;
    let (lhs, rhs) = (ValueId(0), ValueId(3));
    let first = Instruction::Const {
        ty: ty.clone(),
        value: 1,
    };
    let ty = || ty.clone();
    vec![
        first,
        Instruction::Add { ty: ty(), lhs, rhs },
        Instruction::Sub { ty: ty(), lhs, rhs },
        Instruction::Mul { ty: ty(), lhs, rhs },
        Instruction::Div { ty: ty(), lhs, rhs },
        Instruction::IrEq { ty: ty(), lhs, rhs },
        Instruction::IrNe { ty: ty(), lhs, rhs },
        Instruction::Lt { ty: ty(), lhs, rhs },
        Instruction::Le { ty: ty(), lhs, rhs },
        Instruction::Gt { ty: ty(), lhs, rhs },
        Instruction::Ge { ty: ty(), lhs, rhs },
        Instruction::Poseidon { lhs, rhs },
    ]
}

/// The instructions on memory, storage and locals, calls and events.
fn effects() -> Vec<Instruction> {
    let (base, value) = (ValueId(2), ValueId(0));
    let call = |ret_ty| Instruction::Call {
        function: FunctionId(1),
        args: vec![value, base],
        ret_ty,
    };
    let mut effects = memory(base, value);
    effects.extend([
        call(point()),
        call(IrType::Void),
        Instruction::Assert {
            condition: ValueId(1),
        },
        Instruction::Emit {
            event_name: text(X),
            args: vec![value],
        },
        Instruction::ContextRead {
            kind: ContextKind::Nonce,
        },
    ]);
    effects
}

fn memory(base: ValueId, value: ValueId) -> Vec<Instruction> {
    let ty = || IrType::U64;
    let local = LocalId(1);
    let (slot, offset) = (1, 8);
    vec![
        Instruction::Load {
            ty: ty(),
            base,
            offset,
        },
        Instruction::Store {
            base,
            offset,
            value,
        },
        Instruction::StateRead { ty: ty(), slot },
        Instruction::StateWrite { slot, value },
        Instruction::ReadLocal { local, ty: ty() },
        Instruction::WriteLocal { local, value },
    ]
}
