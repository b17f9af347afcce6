//! Nodes of each kind as statements, expressions and trees.

use crate::*;

macro_rules! nodes {
    ($sum:ident: $($variant:ident($node:ty),)*) => {
        $(impl From<$node> for $sum {
            fn from(node: $node) -> $sum {
                $sum::$variant(node)
            }
        })*
    };
}

nodes! {
    Expr:
    BoolOp(ExprBoolOp),
    NamedExpr(ExprNamedExpr),
    BinOp(ExprBinOp),
    UnaryOp(ExprUnaryOp),
    Lambda(ExprLambda),
    IfExp(ExprIfExp),
    Dict(ExprDict),
    Set(ExprSet),
    ListComp(ExprListComp),
    SetComp(ExprSetComp),
    DictComp(ExprDictComp),
    GeneratorExp(ExprGeneratorExp),
    Await(ExprAwait),
    Yield(ExprYield),
    YieldFrom(ExprYieldFrom),
    Compare(ExprCompare),
    Call(ExprCall),
    FormattedValue(ExprFormattedValue),
    JoinedStr(ExprJoinedStr),
    Constant(ExprConstant),
    Attribute(ExprAttribute),
    Subscript(ExprSubscript),
    Starred(ExprStarred),
    Name(ExprName),
    List(ExprList),
    Tuple(ExprTuple),
    Slice(ExprSlice),
}

nodes! {
    Stmt:
    FunctionDef(StmtFunctionDef),
    AsyncFunctionDef(StmtAsyncFunctionDef),
    ClassDef(StmtClassDef),
    Return(StmtReturn),
    Delete(StmtDelete),
    Assign(StmtAssign),
    TypeAlias(StmtTypeAlias),
    AugAssign(StmtAugAssign),
    AnnAssign(StmtAnnAssign),
    For(StmtFor),
    AsyncFor(StmtAsyncFor),
    While(StmtWhile),
    If(StmtIf),
    With(StmtWith),
    AsyncWith(StmtAsyncWith),
    Match(StmtMatch),
    Raise(StmtRaise),
    Try(StmtTry),
    TryStar(StmtTryStar),
    Assert(StmtAssert),
    Import(StmtImport),
    ImportFrom(StmtImportFrom),
    Global(StmtGlobal),
    Nonlocal(StmtNonlocal),
    Expr(StmtExpr),
    Pass(StmtPass),
    Break(StmtBreak),
    Continue(StmtContinue),
}

nodes! {
    TypeParam:
    TypeVar(TypeParamTypeVar),
    ParamSpec(TypeParamParamSpec),
    TypeVarTuple(TypeParamTypeVarTuple),
}

nodes! {
    Mod:
    Module(ModModule),
    Interactive(ModInteractive),
    Expression(ModExpression),
    FunctionType(ModFunctionType),
}

impl From<Vec<Stmt>> for ModModule {
    fn from(body: Vec<Stmt>) -> ModModule {
        ModModule { body: body.into() }
    }
}

impl From<Expr> for ModExpression {
    fn from(body: Expr) -> ModExpression {
        ModExpression { body: Box::new(body) }
    }
}

macro_rules! constants {
    ($($variant:ident($value:ty),)*) => {
        $(impl From<$value> for Constant {
            fn from(value: $value) -> Constant {
                Constant::$variant(value.into())
            }
        })*
    };
}

constants! {
    Bool(bool),
    Int(i32),
    Int(i64),
    Int(i128),
    Str(&str),
    Str(String),
    Bytes(Vec<u8>),
}
