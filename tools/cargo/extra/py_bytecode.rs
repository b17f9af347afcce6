//! Code objects as Rust reads them: by iterators over plain values.

use crate::{CodeFlags, CodeObject, CodeUnit, ConstantData, Instruction};
use bitflags::Flags;
use py_base::{List, SourceLocation, Text};

/// A constant of a code object.
#[derive(Clone, Copy)]
pub enum Constant<'a> {
    /// `None`.
    None,
    /// `True` or `False`.
    Bool(bool),
    /// A text.
    Str(&'a str),
    /// Bytes.
    Bytes(&'a [u8]),
    /// A whole number.
    Integer(i128),
    /// A tuple.
    Tuple(Elements<'a>),
    /// `...`.
    Ellipsis,
    /// The code of a scope within.
    Code(&'a CodeObject),
}

/// The elements of a tuple among the constants.
#[derive(Clone, Copy)]
pub struct Elements<'a>(&'a List<ConstantData>);

impl<'a> Elements<'a> {
    /// The elements in order.
    ///
    /// ```
    /// use py_bytecode::{Constant, ConstantData};
    ///
    /// let pair = ConstantData::Tuple { elements: [ConstantData::None, ConstantData::Integer { value: 7 }].into() };
    /// let Constant::Tuple(elements) = Constant::from(&pair) else { unreachable!() };
    /// assert!(matches!(elements.iter().last(), Some(Constant::Integer(7))));
    /// ```
    pub fn iter(self) -> impl ExactSizeIterator<Item = Constant<'a>> + DoubleEndedIterator {
        self.0.as_slice().iter().map(Constant::from)
    }

    /// How many there are.
    ///
    /// ```
    /// use py_bytecode::{Constant, ConstantData};
    ///
    /// let one = ConstantData::Tuple { elements: [ConstantData::Ellipsis].into() };
    /// let Constant::Tuple(elements) = Constant::from(&one) else { unreachable!() };
    /// assert_eq!(elements.len(), 1);
    /// ```
    pub fn len(self) -> usize {
        self.0.len()
    }

    /// Whether there is none.
    ///
    /// ```
    /// use py_bytecode::{Constant, ConstantData};
    ///
    /// let none = ConstantData::Tuple { elements: [].into() };
    /// let Constant::Tuple(elements) = Constant::from(&none) else { unreachable!() };
    /// assert!(elements.is_empty());
    /// ```
    pub fn is_empty(self) -> bool {
        self.0.is_empty()
    }
}

impl<'a> From<&'a ConstantData> for Constant<'a> {
    fn from(constant: &'a ConstantData) -> Constant<'a> {
        match constant {
            ConstantData::None => Constant::None,
            ConstantData::Boolean { value } => Constant::Bool(*value),
            ConstantData::Str { value } => Constant::Str(value.as_str()),
            ConstantData::Bytes { value } => Constant::Bytes(value.as_slice()),
            ConstantData::Integer { value } => Constant::Integer(*value),
            ConstantData::Tuple { elements } => Constant::Tuple(Elements(elements)),
            ConstantData::Ellipsis => Constant::Ellipsis,
            ConstantData::Code { code } => Constant::Code(code),
        }
    }
}

/// One unit of code, its place among the units, and where in the source it comes from.
#[derive(Clone, Copy, PartialEq, Eq, Debug)]
pub struct Unit {
    /// The place among the units, from 0; jumps name it.
    pub offset: usize,
    /// The instruction.
    pub op: Instruction,
    /// One byte of the operand, the lowest where no prefix stands here.
    pub byte: u8,
    /// Where in the source it comes from.
    pub location: Option<SourceLocation>,
}

/// An instruction with its whole operand.
#[derive(Clone, Copy, PartialEq, Eq, Debug)]
pub struct Operation {
    /// The place of its first unit, which is a prefix where the operand has more than one byte.
    pub offset: usize,
    /// The instruction.
    pub op: Instruction,
    /// The operand. Of more than three prefixes the last three count.
    pub operand: u32,
    /// Where in the source it comes from.
    pub location: Option<SourceLocation>,
}

impl CodeObject {
    /// A code without units, whose tables are empty: the others of its fields are then set by hand.
    ///
    /// ```
    /// use py_bytecode::{CodeObject, CodeUnit, Instruction};
    ///
    /// let unit = CodeUnit { op: Instruction::Pop, arg: 0 };
    /// let code = CodeObject { instructions: [unit].into(), ..CodeObject::named("f", "m.py") };
    /// assert_eq!(code.units().len(), 1);
    /// ```
    pub fn named(name: &str, path: &str) -> CodeObject {
        CodeObject {
            flags: CodeFlags::from_bits_retain(0),
            posonlyarg_count: 0,
            arg_count: 0,
            kwonlyarg_count: 0,
            source_path: path.into(),
            first_line_number: None,
            obj_name: name.into(),
            max_stackdepth: 0,
            instructions: [].into(),
            locations: [].into(),
            constants: [].into(),
            names: [].into(),
            varnames: [].into(),
            cellvars: [].into(),
            freevars: [].into(),
            cell2arg: None,
        }
    }

    /// The name of the scope, as `<module>` or `f`.
    ///
    /// ```
    /// assert_eq!(py_bytecode::CodeObject::named("f", "m.py").name(), "f");
    /// ```
    pub fn name(&self) -> &str {
        self.obj_name.as_str()
    }

    /// The path of the source, as it was given.
    ///
    /// ```
    /// assert_eq!(py_bytecode::CodeObject::named("f", "m.py").path(), "m.py");
    /// ```
    pub fn path(&self) -> &str {
        self.source_path.as_str()
    }

    /// The row in which the scope begins.
    ///
    /// ```
    /// use py_base::OneIndexed;
    /// use py_bytecode::CodeObject;
    ///
    /// let code = CodeObject { first_line_number: OneIndexed::new(3), ..CodeObject::named("f", "m.py") };
    /// assert_eq!(code.first_line(), Some(3));
    /// ```
    pub fn first_line(&self) -> Option<u32> {
        self.first_line_number.map(|row| row.get())
    }

    /// The most values that may lie on the value stack.
    ///
    /// ```
    /// assert_eq!(py_bytecode::CodeObject::named("f", "m.py").depth(), 0);
    /// ```
    pub fn depth(&self) -> u32 {
        self.max_stackdepth
    }

    /// The units in order.
    ///
    /// ```
    /// use py_base::SourceLocation;
    /// use py_bytecode::{CodeObject, CodeUnit, Instruction};
    ///
    /// let unit = CodeUnit { op: Instruction::Pop, arg: 0 };
    /// let (instructions, locations) = ([unit].into(), [SourceLocation::at(1, 5)].into());
    /// let code = CodeObject { instructions, locations, ..CodeObject::named("f", "m.py") };
    /// let unit = code.units().next().expect("a unit");
    /// assert_eq!((unit.offset, unit.op, unit.byte), (0, Instruction::Pop, 0));
    /// assert_eq!(unit.location, Some(SourceLocation::at(1, 5)));
    /// ```
    pub fn units(&self) -> impl ExactSizeIterator<Item = Unit> {
        let locations = self.locations.as_slice();
        self.instructions.as_slice().iter().enumerate().map(|(offset, &CodeUnit { op, arg })| {
            let location = locations.get(offset).copied();
            Unit { offset, op, byte: arg, location }
        })
    }

    /// The instructions in order, each with its whole operand.
    ///
    /// ```
    /// use py_bytecode::{CodeObject, CodeUnit, Instruction};
    ///
    /// let instructions = [
    ///     CodeUnit { op: Instruction::ExtendedArg, arg: 1 },
    ///     CodeUnit { op: Instruction::LoadConst, arg: 2 },
    /// ];
    /// let code = CodeObject { instructions: instructions.into(), ..CodeObject::named("f", "m.py") };
    /// let operation = code.operations().next().expect("an instruction");
    /// assert_eq!((operation.offset, operation.op, operation.operand), (0, Instruction::LoadConst, 258));
    /// ```
    pub fn operations(&self) -> impl Iterator<Item = Operation> {
        let mut begun = None;
        self.units().filter_map(move |Unit { offset, op, byte, location }| {
            let (start, high) = begun.take().unwrap_or((offset, 0_u32));
            let operand = (high << 8) | u32::from(byte);
            if op == Instruction::ExtendedArg {
                begun = Some((start, operand));
                return None;
            }
            Some(Operation { offset: start, op, operand, location })
        })
    }

    /// The table that operands of constants name.
    ///
    /// ```
    /// use py_bytecode::{CodeObject, Constant, ConstantData};
    ///
    /// let constants = [ConstantData::Str { value: "a".into() }, ConstantData::None];
    /// let code = CodeObject { constants: constants.into(), ..CodeObject::named("f", "m.py") };
    /// assert!(matches!(code.constants().next(), Some(Constant::Str("a"))));
    /// ```
    pub fn constants(&self) -> impl ExactSizeIterator<Item = Constant<'_>> {
        self.constants.as_slice().iter().map(Constant::from)
    }

    /// The codes of the scopes right within.
    ///
    /// ```
    /// use py_bytecode::{CodeObject, ConstantData};
    ///
    /// let inner = ConstantData::Code { code: Box::new(CodeObject::named("f", "m.py")) };
    /// let code = CodeObject { constants: [ConstantData::None, inner].into(), ..CodeObject::named("<module>", "m.py") };
    /// assert_eq!(code.children().map(CodeObject::name).collect::<Vec<_>>(), ["f"]);
    /// ```
    pub fn children(&self) -> impl Iterator<Item = &CodeObject> {
        self.constants().filter_map(|constant| match constant {
            Constant::Code(code) => Some(code),
            _ => None,
        })
    }

    /// The table of attributes, imports, global names and names of class bodies and modules.
    ///
    /// ```
    /// use py_bytecode::CodeObject;
    ///
    /// let code = CodeObject { names: ["print".into()].into(), ..CodeObject::named("f", "m.py") };
    /// assert_eq!(code.names().collect::<Vec<_>>(), ["print"]);
    /// ```
    pub fn names(&self) -> impl ExactSizeIterator<Item = &str> {
        self.names.as_slice().iter().map(Text::as_str)
    }

    /// The local variables, the parameters first.
    ///
    /// ```
    /// use py_bytecode::CodeObject;
    ///
    /// let code = CodeObject { varnames: ["a".into(), "b".into()].into(), ..CodeObject::named("f", "m.py") };
    /// assert_eq!(code.variables().collect::<Vec<_>>(), ["a", "b"]);
    /// ```
    pub fn variables(&self) -> impl ExactSizeIterator<Item = &str> {
        self.varnames.as_slice().iter().map(Text::as_str)
    }

    /// The local variables that scopes within use.
    ///
    /// ```
    /// use py_bytecode::CodeObject;
    ///
    /// let code = CodeObject { cellvars: ["a".into()].into(), ..CodeObject::named("f", "m.py") };
    /// assert_eq!(code.cells().collect::<Vec<_>>(), ["a"]);
    /// ```
    pub fn cells(&self) -> impl ExactSizeIterator<Item = &str> {
        self.cellvars.as_slice().iter().map(Text::as_str)
    }

    /// The variables of scopes around that this one uses.
    ///
    /// ```
    /// use py_bytecode::CodeObject;
    ///
    /// let code = CodeObject { freevars: ["a".into()].into(), ..CodeObject::named("f", "m.py") };
    /// assert_eq!(code.free().collect::<Vec<_>>(), ["a"]);
    /// ```
    pub fn free(&self) -> impl ExactSizeIterator<Item = &str> {
        self.freevars.as_slice().iter().map(Text::as_str)
    }
}
