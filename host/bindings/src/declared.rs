//! Functions as the archive declares them, whatever the language.

use crate::constants::Scope;
use crate::text::is_name;

/// A number that crosses.
#[derive(Clone, Copy, PartialEq, Eq, Debug)]
pub enum Number {
    U8,
    U32,
    U64,
    I16,
    I32,
    I64,
    F32,
}

impl Number {
    /// From the name in Rattle, where usize has 64 bits.
    pub fn named(name: &str) -> Result<Number, String> {
        Ok(match name {
            "u8" => Number::U8,
            "u32" => Number::U32,
            "u64" | "usize" => Number::U64,
            "i16" => Number::I16,
            "i32" => Number::I32,
            "i64" => Number::I64,
            "f32" => Number::F32,
            _ => return Err(format!("no number {name} crosses")),
        })
    }

    pub fn in_c(self) -> &'static str {
        match self {
            Number::U8 => "uint8_t",
            Number::U32 => "uint32_t",
            Number::U64 => "uint64_t",
            Number::I16 => "int16_t",
            Number::I32 => "int32_t",
            Number::I64 => "int64_t",
            Number::F32 => "float",
        }
    }

    pub fn in_rust(self) -> &'static str {
        match self {
            Number::U8 => "u8",
            Number::U32 => "u32",
            Number::U64 => "u64",
            Number::I16 => "i16",
            Number::I32 => "i32",
            Number::I64 => "i64",
            Number::F32 => "f32",
        }
    }
}

/// How a parameter is handed over.
#[derive(Clone, Copy, PartialEq, Eq, Debug)]
pub enum Form {
    Value,
    Place { writable: bool },
    Array { writable: bool, length: u64 },
    Slice { writable: bool },
}

#[derive(Clone, Debug)]
pub struct Parameter {
    pub name: String,
    pub number: Number,
    pub form: Form,
    /// The constant that an array's length is declared by, where it is one: `crate::NAME`.
    pub constant: Option<String>,
}

impl Parameter {
    /// From `combs: &mut [i32; 8]`.
    pub fn parse(declared: &str, scope: &Scope) -> Result<Parameter, String> {
        let (name, kind) = declared
            .split_once(':')
            .ok_or_else(|| format!("no type in {declared}"))?;
        let (name, kind) = (name.trim(), kind.trim());
        if !is_name(name) {
            return Err(format!("no name in {declared}"));
        }
        let (number, form) = match kind.strip_prefix('&') {
            None => (Number::named(kind)?, Form::Value),
            Some(lent) => match lent.strip_prefix("mut ") {
                Some(lent) => lent_form(lent, true, scope)?,
                None => lent_form(lent, false, scope)?,
            },
        };
        Ok(Parameter {
            name: name.to_string(),
            number,
            form,
            constant: kind
                .trim_end_matches(']')
                .split_once(';')
                .and_then(|(_, length)| scope.constant(length.trim())),
        })
    }

    pub fn is_writable(&self) -> bool {
        match self.form {
            Form::Value => false,
            Form::Place { writable } | Form::Array { writable, .. } | Form::Slice { writable } => {
                writable
            }
        }
    }
}

fn lent_form(lent: &str, writable: bool, scope: &Scope) -> Result<(Number, Form), String> {
    let Some(inside) = lent
        .strip_prefix('[')
        .and_then(|lent| lent.strip_suffix(']'))
    else {
        return Ok((Number::named(lent)?, Form::Place { writable }));
    };
    match inside.split_once(';') {
        None => Ok((Number::named(inside.trim())?, Form::Slice { writable })),
        Some((element, length)) => {
            let length = scope.whole(length)?;
            Ok((
                Number::named(element.trim())?,
                Form::Array { writable, length },
            ))
        }
    }
}

#[derive(Clone, Debug)]
pub struct Function {
    pub name: String,
    pub parameters: Vec<Parameter>,
    /// Whether it answers the number of a refusal.
    pub answers: bool,
}

/// What an opening writes: all that it is lent for writing, in that order.
pub struct State {
    pub name: String,
    pub opening: String,
    pub fields: Vec<Parameter>,
}
