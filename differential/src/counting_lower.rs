//! The lowering of `ir/lower.rs`, copied, with refusal 30 added: it stops when
//! the 257th block or the 257th local of a function would be made.
//!
//! Everything else is left as it was, also the comments and the long functions,
//! so that `diff src/budzkvm/ir/lower.rs src/counting_lower.rs` shows the
//! addition alone. The oracle compares the two wherever 30 does not occur. The
//! licence is that of the original, `src/budzkvm/LICENSE.txt`.

use std::collections::HashMap;

use crate::ast::{BinOp, Contract, Expr, Stmt};
use crate::sema::{self, SemanticAnalyzer};

use crate::ir::lower::LoweringError;
use crate::ir::{
    BasicBlock, BlockId, ContextKind, FunctionId, InstrNode, Instruction, IrFunction, IrProgram,
    IrType, LocalId, Terminator, ValueId,
};

// ─── Hata tipi ────────────────────────────────────────────────────────────

/// Why a contract is not lowered.
#[derive(Debug, Clone, PartialEq, Eq)]
pub enum Stop {
    /// What the unchanged lowering refuses with.
    Error(LoweringError),
    /// The 257th block or local of this function would be made.
    Full(FunctionId),
}

impl From<LoweringError> for Stop {
    fn from(error: LoweringError) -> Self {
        Stop::Error(error)
    }
}

/// The most blocks, and the most locals, of one function.
const FUNCTION_LIMIT: usize = 256;

// ─── Yardımcı dönüşümler ──────────────────────────────────────────────────

/// `sema::Type` → `IrType`. Unknown lowering hatasına dönüşür.
fn from_sema_type(ty: &sema::Type) -> Result<IrType, LoweringError> {
    match ty {
        sema::Type::U64 => Ok(IrType::U64),
        sema::Type::Bool => Ok(IrType::Bool),
        sema::Type::Field => Ok(IrType::Field),
        sema::Type::Struct(n) => Ok(IrType::Struct(n.clone())),
        sema::Type::Void => Ok(IrType::Void),
        sema::Type::Unknown => Err(LoweringError::UnresolvedType("Unknown".into())),
    }
}

/// String tür adı → `IrType`.
fn parse_ir_type(s: &str) -> Result<IrType, LoweringError> {
    match s {
        "u64" => Ok(IrType::U64),
        "bool" => Ok(IrType::Bool),
        "field" => Ok(IrType::Field),
        "void" | "" => Ok(IrType::Void),
        other => Ok(IrType::Struct(other.to_string())),
    }
}

// ─── Genel giriş noktası ──────────────────────────────────────────────────

/// Bir contract'ı [`IrProgram`]'a dönüştürür.
///
/// Mevcut production codegen (`codegen.rs`) değiştirilmez; bu fonksiyon
/// paralel/alternatif bir lowering yolu sunar.
pub fn lower_contract(
    contract: &Contract,
    sema: &SemanticAnalyzer,
) -> Result<IrProgram, Stop> {
    let mut lowerer = Lowerer::new(contract, sema);
    lowerer.lower(contract)
}

// ─── Lowerer ──────────────────────────────────────────────────────────────

struct Lowerer<'a> {
    sema: &'a SemanticAnalyzer,
    /// Storage alan adı → slot indeksi (0-tabanlı).
    storage_slots: HashMap<String, i32>,
    /// Struct adı → sıralı alan adları listesi (byte-offset hesabı için).
    struct_field_order: HashMap<String, Vec<String>>,
    /// Fonksiyon adı → FunctionId (birinci geçiş).
    function_ids: HashMap<String, FunctionId>,
}

impl<'a> Lowerer<'a> {
    fn new(contract: &Contract, sema: &'a SemanticAnalyzer) -> Self {
        let storage_slots = contract
            .storage
            .iter()
            .enumerate()
            .map(|(i, f)| (f.name.clone(), i as i32))
            .collect();

        let struct_field_order = contract
            .structs
            .iter()
            .map(|s| {
                let fields = s.fields.iter().map(|f| f.name.clone()).collect();
                (s.name.clone(), fields)
            })
            .collect();

        Lowerer {
            sema,
            storage_slots,
            struct_field_order,
            function_ids: HashMap::new(),
        }
    }

    fn lower(&mut self, contract: &Contract) -> Result<IrProgram, Stop> {
        let mut program = IrProgram::default();

        // 1. Geçiş: tüm fonksiyonlara FunctionId ata.
        for (i, func) in contract.functions.iter().enumerate() {
            let fid = FunctionId(i as u32);
            self.function_ids.insert(func.name.clone(), fid);
            program.function_names.insert(func.name.clone(), fid);
        }

        // 2. Geçiş: her fonksiyonu lower et.
        for (i, func) in contract.functions.iter().enumerate() {
            let ir_fn = self.lower_function(FunctionId(i as u32), func)?;
            program.functions.push(ir_fn);
        }

        Ok(program)
    }

    fn lower_function(
        &mut self,
        fid: FunctionId,
        func: &crate::ast::Function,
    ) -> Result<IrFunction, Stop> {
        let ret_ty = match &func.return_type {
            Some(t) => parse_ir_type(t)?,
            None => IrType::Void,
        };

        let mut ctx = FnCtx::new(fid, ret_ty.clone());

        // Parametreler: her biri bir ValueId alır, arka planda bir LocalId ile desteklenir.
        let mut params = Vec::new();
        for param in &func.params {
            let ty = parse_ir_type(&param.ty)?;
            let val = ctx.fresh_value(); // parametre değeri
            params.push((val, ty.clone()));
            let local = ctx.fresh_local(ty.clone())?;
            ctx.define_local(&param.name, local, ty);
            // Slotu parametre değeri ile başlat.
            ctx.push_instr(Instruction::WriteLocal { local, value: val });
        }

        // Gövdeyi lower et.
        for stmt in &func.body {
            self.lower_stmt(stmt, &mut ctx)?;
        }

        // Açık return yoksa void return ekle.
        if !ctx.current_block_terminated() {
            ctx.set_terminator(Terminator::Return(None));
        }

        // Blokları deterministik sırayla topla.
        let mut blocks = ctx.blocks;
        blocks.sort_by_key(|b| b.id);

        Ok(IrFunction {
            id: fid,
            name: func.name.clone(),
            params,
            ret_ty,
            blocks,
            locals: ctx.locals,
        })
    }

    // ── Deyim lowering ────────────────────────────────────────────────────

    fn lower_stmt(&mut self, stmt: &Stmt, ctx: &mut FnCtx) -> Result<(), Stop> {
        // Terminate edilmiş bloğa kod üretme.
        if ctx.current_block_terminated() {
            return Ok(());
        }

        match stmt {
            Stmt::Let(name, expr) => {
                let (val, ty) = self.lower_expr_value(expr, ctx)?;
                let local = ctx.fresh_local(ty.clone())?;
                ctx.define_local(name, local, ty);
                ctx.push_instr(Instruction::WriteLocal { local, value: val });
            }

            Stmt::Assign(name, expr) => {
                let (val, _) = self.lower_expr_value(expr, ctx)?;
                let (local, _) = ctx
                    .lookup_local(name)
                    .ok_or_else(|| LoweringError::UndefinedVariable(name.clone()))?;
                ctx.push_instr(Instruction::WriteLocal { local, value: val });
            }

            Stmt::Constrain(expr) => {
                let (val, _) = self.lower_expr_value(expr, ctx)?;
                ctx.push_instr(Instruction::Assert { condition: val });
            }

            Stmt::StorageWrite(name, expr) => {
                let slot = *self
                    .storage_slots
                    .get(name)
                    .ok_or_else(|| LoweringError::UndefinedVariable(name.clone()))?;
                let (val, _) = self.lower_expr_value(expr, ctx)?;
                ctx.push_instr(Instruction::StateWrite { slot, value: val });
            }

            Stmt::If(cond, then_body, else_body) => {
                let (cond_val, _) = self.lower_expr_value(cond, ctx)?;
                let then_block = ctx.fresh_block()?;
                let else_block = ctx.fresh_block()?;
                let merge_block = ctx.fresh_block()?;

                ctx.set_terminator(Terminator::Branch {
                    condition: cond_val,
                    then_block,
                    else_block,
                });

                // then dalı
                ctx.switch_to(then_block);
                ctx.push_scope();
                for s in then_body {
                    self.lower_stmt(s, ctx)?;
                }
                ctx.pop_scope();
                if !ctx.current_block_terminated() {
                    ctx.set_terminator(Terminator::Jump(merge_block));
                }

                // else dalı
                ctx.switch_to(else_block);
                ctx.push_scope();
                if let Some(eb) = else_body {
                    for s in eb {
                        self.lower_stmt(s, ctx)?;
                    }
                }
                ctx.pop_scope();
                if !ctx.current_block_terminated() {
                    ctx.set_terminator(Terminator::Jump(merge_block));
                }

                ctx.switch_to(merge_block);
            }

            Stmt::While(cond, body) => {
                let header_block = ctx.fresh_block()?;
                let body_block = ctx.fresh_block()?;
                let exit_block = ctx.fresh_block()?;

                ctx.set_terminator(Terminator::Jump(header_block));

                // header: koşul değerlendirmesi
                ctx.switch_to(header_block);
                let (cond_val, _) = self.lower_expr_value(cond, ctx)?;
                ctx.set_terminator(Terminator::Branch {
                    condition: cond_val,
                    then_block: body_block,
                    else_block: exit_block,
                });

                // gövde
                ctx.switch_to(body_block);
                ctx.push_scope();
                for s in body {
                    self.lower_stmt(s, ctx)?;
                }
                ctx.pop_scope();
                if !ctx.current_block_terminated() {
                    ctx.set_terminator(Terminator::Jump(header_block));
                }

                ctx.switch_to(exit_block);
            }

            Stmt::For {
                var,
                start,
                end,
                body,
            } => {
                let (start_val, _) = self.lower_expr_value(start, ctx)?;
                let (end_val, _) = self.lower_expr_value(end, ctx)?;

                // Döngü değişkeni için local slot.
                let loop_local = ctx.fresh_local(IrType::U64)?;
                ctx.push_instr(Instruction::WriteLocal {
                    local: loop_local,
                    value: start_val,
                });

                // end değerini de bir slotta tut (header block'ta referans gerekebilir).
                let end_local = ctx.fresh_local(IrType::U64)?;
                ctx.push_instr(Instruction::WriteLocal {
                    local: end_local,
                    value: end_val,
                });

                let header_block = ctx.fresh_block()?;
                let body_block = ctx.fresh_block()?;
                let exit_block = ctx.fresh_block()?;

                ctx.set_terminator(Terminator::Jump(header_block));

                // header: i < end
                ctx.switch_to(header_block);
                let loop_val = ctx
                    .push_instr(Instruction::ReadLocal {
                        local: loop_local,
                        ty: IrType::U64,
                    })
                    .expect("ReadLocal produces value");
                let end_read = ctx
                    .push_instr(Instruction::ReadLocal {
                        local: end_local,
                        ty: IrType::U64,
                    })
                    .expect("ReadLocal produces value");
                let cond_val = ctx
                    .push_instr(Instruction::Lt {
                        ty: IrType::U64,
                        lhs: loop_val,
                        rhs: end_read,
                    })
                    .expect("Lt produces value");
                ctx.set_terminator(Terminator::Branch {
                    condition: cond_val,
                    then_block: body_block,
                    else_block: exit_block,
                });

                // gövde
                ctx.switch_to(body_block);
                ctx.push_scope();
                ctx.define_local(var, loop_local, IrType::U64);
                for s in body {
                    self.lower_stmt(s, ctx)?;
                }
                ctx.pop_scope();
                if !ctx.current_block_terminated() {
                    // i += 1
                    let cur = ctx
                        .push_instr(Instruction::ReadLocal {
                            local: loop_local,
                            ty: IrType::U64,
                        })
                        .expect("ReadLocal produces value");
                    let one = ctx
                        .push_instr(Instruction::Const {
                            ty: IrType::U64,
                            value: 1,
                        })
                        .expect("Const produces value");
                    let next = ctx
                        .push_instr(Instruction::Add {
                            ty: IrType::U64,
                            lhs: cur,
                            rhs: one,
                        })
                        .expect("Add produces value");
                    ctx.push_instr(Instruction::WriteLocal {
                        local: loop_local,
                        value: next,
                    });
                    ctx.set_terminator(Terminator::Jump(header_block));
                }

                ctx.switch_to(exit_block);
            }

            Stmt::Return(maybe_expr) => {
                let ret_val = match maybe_expr {
                    Some(e) => {
                        let (v, _) = self.lower_expr_value(e, ctx)?;
                        Some(v)
                    }
                    None => None,
                };
                ctx.set_terminator(Terminator::Return(ret_val));
            }

            Stmt::Emit(event_name, args) => {
                let mut arg_vals = Vec::new();
                for arg in args {
                    let (v, _) = self.lower_expr_value(arg, ctx)?;
                    arg_vals.push(v);
                }
                ctx.push_instr(Instruction::Emit {
                    event_name: event_name.clone(),
                    args: arg_vals,
                });
            }

            Stmt::Expr(expr) => {
                // Void çağrılar dahil tüm ifadeler; sonuç yok sayılır.
                self.lower_expr(expr, ctx)?;
            }

            Stmt::MappingWrite(_, _, _) => {
                return Err(Stop::Error(LoweringError::UnsupportedNode(
                    "MappingWrite — henüz IR lowering'de desteklenmiyor".into(),
                )));
            }
        }

        Ok(())
    }

    // ── İfade lowering ────────────────────────────────────────────────────

    /// İfadeyi lower eder ve `Option<(ValueId, IrType)>` döndürür.
    /// Void çağrılar için `None` döner; diğer tüm ifadeler `Some(...)` döner.
    fn lower_expr(
        &mut self,
        expr: &Expr,
        ctx: &mut FnCtx,
    ) -> Result<Option<(ValueId, IrType)>, Stop> {
        match expr {
            Expr::Int(v) => {
                let val = ctx
                    .push_instr(Instruction::Const {
                        ty: IrType::U64,
                        value: *v,
                    })
                    .expect("Const produces value");
                Ok(Some((val, IrType::U64)))
            }

            Expr::Ident(name) => {
                let (local, ty) = ctx
                    .lookup_local(name)
                    .ok_or_else(|| LoweringError::UndefinedVariable(name.clone()))?;
                let val = ctx
                    .push_instr(Instruction::ReadLocal {
                        local,
                        ty: ty.clone(),
                    })
                    .expect("ReadLocal produces value");
                Ok(Some((val, ty)))
            }

            Expr::Binary(lhs, op, rhs) => {
                let (l_val, l_ty) = self.lower_expr_value(lhs, ctx)?;
                let (r_val, _) = self.lower_expr_value(rhs, ctx)?;

                let (instr, res_ty) = match op {
                    BinOp::Add => (
                        Instruction::Add {
                            ty: l_ty.clone(),
                            lhs: l_val,
                            rhs: r_val,
                        },
                        l_ty,
                    ),
                    BinOp::Sub => (
                        Instruction::Sub {
                            ty: l_ty.clone(),
                            lhs: l_val,
                            rhs: r_val,
                        },
                        l_ty,
                    ),
                    BinOp::Mul => (
                        Instruction::Mul {
                            ty: l_ty.clone(),
                            lhs: l_val,
                            rhs: r_val,
                        },
                        l_ty,
                    ),
                    BinOp::Div => (
                        Instruction::Div {
                            ty: l_ty.clone(),
                            lhs: l_val,
                            rhs: r_val,
                        },
                        l_ty,
                    ),
                    BinOp::Eq => (
                        Instruction::IrEq {
                            ty: l_ty,
                            lhs: l_val,
                            rhs: r_val,
                        },
                        IrType::Bool,
                    ),
                    BinOp::Neq => (
                        Instruction::IrNe {
                            ty: l_ty,
                            lhs: l_val,
                            rhs: r_val,
                        },
                        IrType::Bool,
                    ),
                    BinOp::Lt => (
                        Instruction::Lt {
                            ty: l_ty,
                            lhs: l_val,
                            rhs: r_val,
                        },
                        IrType::Bool,
                    ),
                    BinOp::Lte => (
                        Instruction::Le {
                            ty: l_ty,
                            lhs: l_val,
                            rhs: r_val,
                        },
                        IrType::Bool,
                    ),
                    BinOp::Gt => (
                        Instruction::Gt {
                            ty: l_ty,
                            lhs: l_val,
                            rhs: r_val,
                        },
                        IrType::Bool,
                    ),
                    BinOp::Gte => (
                        Instruction::Ge {
                            ty: l_ty,
                            lhs: l_val,
                            rhs: r_val,
                        },
                        IrType::Bool,
                    ),
                };

                let val = ctx.push_instr(instr).expect("binary op produces value");
                Ok(Some((val, res_ty)))
            }

            Expr::StorageRead(name) => {
                let slot = *self
                    .storage_slots
                    .get(name)
                    .ok_or_else(|| LoweringError::UndefinedVariable(name.clone()))?;
                let val = ctx
                    .push_instr(Instruction::StateRead {
                        ty: IrType::U64,
                        slot,
                    })
                    .expect("StateRead produces value");
                Ok(Some((val, IrType::U64)))
            }

            Expr::Call(name, args) => self.lower_call(name, args, ctx),

            Expr::FieldAccess(base_expr, field) => {
                let (base_val, base_ty) = self.lower_expr_value(base_expr, ctx)?;
                let struct_name = match &base_ty {
                    IrType::Struct(n) => n.clone(),
                    _ => {
                        return Err(Stop::Error(LoweringError::UnsupportedNode(
                            "field access on non-struct type".into(),
                        )))
                    }
                };
                let fields = self
                    .struct_field_order
                    .get(&struct_name)
                    .ok_or_else(|| LoweringError::UnresolvedType(struct_name.clone()))?;
                let idx = fields.iter().position(|f| f == field).ok_or_else(|| {
                    LoweringError::UnsupportedNode(format!(
                        "struct {struct_name} has no field {field}"
                    ))
                })?;
                let offset = (idx * 8) as i64;
                let val = ctx
                    .push_instr(Instruction::Load {
                        ty: IrType::U64,
                        base: base_val,
                        offset,
                    })
                    .expect("Load produces value");
                Ok(Some((val, IrType::U64)))
            }

            Expr::StructLiteral(_, _) => Err(Stop::Error(LoweringError::UnsupportedNode(
                "struct literal — heap allocation modeli henüz IR'a eklenmedi".into(),
            ))),

            Expr::MappingRead(_, _) => Err(Stop::Error(LoweringError::UnsupportedNode(
                "MappingRead — henüz IR lowering'de desteklenmiyor".into(),
            ))),
        }
    }

    /// İfadeyi lower eder ve değer üretmesini zorunlu tutar.
    /// Void ifadeler (void fonksiyon çağrısı) hata döndürür.
    fn lower_expr_value(
        &mut self,
        expr: &Expr,
        ctx: &mut FnCtx,
    ) -> Result<(ValueId, IrType), Stop> {
        self.lower_expr(expr, ctx)?
            .ok_or_else(|| LoweringError::UnsupportedNode("void expression used as value".into()).into())
    }

    /// Fonksiyon çağrısını lower eder. Built-in'ler özel olarak ele alınır.
    fn lower_call(
        &mut self,
        name: &str,
        args: &[Expr],
        ctx: &mut FnCtx,
    ) -> Result<Option<(ValueId, IrType)>, Stop> {
        // Context built-in'leri
        if name == "msg::sender" {
            let val = ctx
                .push_instr(Instruction::ContextRead {
                    kind: ContextKind::Sender,
                })
                .expect("ContextRead produces value");
            return Ok(Some((val, IrType::U64)));
        }
        if name == "msg::nonce" {
            let val = ctx
                .push_instr(Instruction::ContextRead {
                    kind: ContextKind::Nonce,
                })
                .expect("ContextRead produces value");
            return Ok(Some((val, IrType::U64)));
        }
        if name == "block::number" {
            let val = ctx
                .push_instr(Instruction::ContextRead {
                    kind: ContextKind::BlockHeight,
                })
                .expect("ContextRead produces value");
            return Ok(Some((val, IrType::U64)));
        }

        // Poseidon built-in
        if name == "poseidon" {
            if args.len() != 2 {
                return Err(Stop::Error(LoweringError::UnsupportedNode(
                    "poseidon() exactly 2 arguments required".into(),
                )));
            }
            let (lhs, _) = self.lower_expr_value(&args[0], ctx)?;
            let (rhs, _) = self.lower_expr_value(&args[1], ctx)?;
            let val = ctx
                .push_instr(Instruction::Poseidon { lhs, rhs })
                .expect("Poseidon produces value");
            return Ok(Some((val, IrType::U64)));
        }

        // verify_merkle_proof — henüz desteklenmiyor
        if name == "verify_merkle_proof" {
            return Err(Stop::Error(LoweringError::UnsupportedNode(
                "verify_merkle_proof — henüz IR lowering'de desteklenmiyor".into(),
            )));
        }

        // Kullanıcı tanımlı fonksiyon
        let fid = self
            .function_ids
            .get(name)
            .copied()
            .ok_or_else(|| LoweringError::UndefinedFunction(name.to_string()))?;

        let mut arg_vals = Vec::new();
        for arg in args {
            let (v, _) = self.lower_expr_value(arg, ctx)?;
            arg_vals.push(v);
        }

        // Dönüş tipini sema'dan al.
        let ret_ty = if let Some((_, ret)) = self.sema.functions.get(name) {
            from_sema_type(ret)?
        } else {
            IrType::Void
        };

        let instr = Instruction::Call {
            function: fid,
            args: arg_vals,
            ret_ty: ret_ty.clone(),
        };
        let result = ctx.push_instr(instr);

        if ret_ty == IrType::Void {
            Ok(None)
        } else {
            Ok(Some((
                result.expect("non-void call produces value"),
                ret_ty,
            )))
        }
    }
}

// ─── Fonksiyon inşa bağlamı ───────────────────────────────────────────────

/// Tek bir fonksiyonun lowering sırasında tutulan mutable durum.
struct FnCtx {
    #[allow(dead_code)]
    id: FunctionId,
    ret_ty: IrType,
    next_value: u32,
    next_block: u32,
    blocks: Vec<BasicBlock>,
    current_block: BlockId,
    /// Kapsam yığını: ad → (LocalId, IrType). Dıştakiler önce aranır.
    scopes: Vec<HashMap<String, (LocalId, IrType)>>,
    /// Yerel slot türleri, LocalId indeksiyle.
    locals: Vec<IrType>,
}

impl FnCtx {
    fn new(id: FunctionId, ret_ty: IrType) -> Self {
        let entry = BasicBlock {
            id: BlockId(0),
            instrs: vec![],
            terminator: None,
        };
        FnCtx {
            id,
            ret_ty,
            next_value: 0,
            next_block: 1,
            blocks: vec![entry],
            current_block: BlockId(0),
            scopes: vec![HashMap::new()],
            locals: vec![],
        }
    }

    fn fresh_value(&mut self) -> ValueId {
        let v = ValueId(self.next_value);
        self.next_value += 1;
        v
    }

    fn fresh_block(&mut self) -> Result<BlockId, Stop> {
        if self.blocks.len() == FUNCTION_LIMIT {
            return Err(Stop::Full(self.id));
        }
        let b = BlockId(self.next_block);
        self.next_block += 1;
        self.blocks.push(BasicBlock {
            id: b,
            instrs: vec![],
            terminator: None,
        });
        Ok(b)
    }

    fn fresh_local(&mut self, ty: IrType) -> Result<LocalId, Stop> {
        if self.locals.len() == FUNCTION_LIMIT {
            return Err(Stop::Full(self.id));
        }
        let l = LocalId(self.locals.len() as u32);
        self.locals.push(ty);
        Ok(l)
    }

    /// Instruction'ı mevcut bloğa ekler; sonuç ValueId varsa döndürür.
    fn push_instr(&mut self, instr: Instruction) -> Option<ValueId> {
        let result = instr.result_type().map(|_| {
            let v = ValueId(self.next_value);
            self.next_value += 1;
            v
        });
        let block = self.block_mut(self.current_block);
        block.instrs.push(InstrNode { result, instr });
        result
    }

    fn set_terminator(&mut self, term: Terminator) {
        self.block_mut(self.current_block).terminator = Some(term);
    }

    fn switch_to(&mut self, block: BlockId) {
        self.current_block = block;
    }

    fn current_block_terminated(&self) -> bool {
        let id = self.current_block;
        self.blocks
            .iter()
            .find(|b| b.id == id)
            .is_some_and(|b| b.terminator.is_some())
    }

    fn block_mut(&mut self, id: BlockId) -> &mut BasicBlock {
        self.blocks
            .iter_mut()
            .find(|b| b.id == id)
            .expect("block_mut: block not found")
    }

    fn define_local(&mut self, name: &str, local: LocalId, ty: IrType) {
        if let Some(scope) = self.scopes.last_mut() {
            scope.insert(name.to_string(), (local, ty));
        }
    }

    fn lookup_local(&self, name: &str) -> Option<(LocalId, IrType)> {
        for scope in self.scopes.iter().rev() {
            if let Some(entry) = scope.get(name) {
                return Some(entry.clone());
            }
        }
        None
    }

    fn push_scope(&mut self) {
        self.scopes.push(HashMap::new());
    }

    fn pop_scope(&mut self) {
        self.scopes.pop();
    }

    #[allow(dead_code)]
    fn ret_ty(&self) -> &IrType {
        &self.ret_ty
    }
}

// ─── Testler ──────────────────────────────────────────────────────────────

