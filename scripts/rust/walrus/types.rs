//! walrus's types, which are `ruffdresser`'s, read by `wasmparser` and written by `wasm_encoder`.
use crate::error::Result;
use anyhow::bail;
pub use ruffdresser::{RefType, Type, TypeId, ValType};

/// What walrus has as calls of `RefType`.
pub(crate) trait RefTypeExt: Sized {
    fn parse(read: wasmparser::RefType) -> Result<Self>;
    #[allow(clippy::wrong_self_convention)]
    fn to_wasmencoder_type(&self) -> wasm_encoder::RefType;
}

impl RefTypeExt for RefType {
    fn parse(read: wasmparser::RefType) -> Result<RefType> {
        match read {
            wasmparser::RefType::FUNCREF => Ok(RefType::Funcref),
            wasmparser::RefType::EXTERNREF => Ok(RefType::Externref),
            wasmparser::RefType::EXNREF => Ok(RefType::Exnref),
            other => bail!("unsupported ref type {:?}", other),
        }
    }

    fn to_wasmencoder_type(&self) -> wasm_encoder::RefType {
        match *self {
            RefType::Funcref => wasm_encoder::RefType::FUNCREF,
            RefType::Externref => wasm_encoder::RefType::EXTERNREF,
            RefType::Exnref => wasm_encoder::RefType::EXNREF,
            _ => unreachable!("walrus 0.24 reads no other one"),
        }
    }
}

/// What walrus has as calls of `ValType`.
pub(crate) trait ValTypeExt: Sized {
    fn parse(read: &wasmparser::ValType) -> Result<Self>;
    fn from_wasmparser_type(read: wasmparser::ValType) -> Result<Box<[Self]>>;
    #[allow(clippy::wrong_self_convention)]
    fn to_wasmencoder_type(&self) -> wasm_encoder::ValType;
}

impl ValTypeExt for ValType {
    fn parse(read: &wasmparser::ValType) -> Result<ValType> {
        Ok(match read {
            wasmparser::ValType::I32 => ValType::I32,
            wasmparser::ValType::I64 => ValType::I64,
            wasmparser::ValType::F32 => ValType::F32,
            wasmparser::ValType::F64 => ValType::F64,
            wasmparser::ValType::V128 => ValType::V128,
            wasmparser::ValType::Ref(of) => ValType::Ref(RefType::parse(*of)?),
        })
    }

    fn from_wasmparser_type(read: wasmparser::ValType) -> Result<Box<[ValType]>> {
        Ok(Box::new([ValType::parse(&read)?]))
    }

    fn to_wasmencoder_type(&self) -> wasm_encoder::ValType {
        match self {
            ValType::I32 => wasm_encoder::ValType::I32,
            ValType::I64 => wasm_encoder::ValType::I64,
            ValType::F32 => wasm_encoder::ValType::F32,
            ValType::F64 => wasm_encoder::ValType::F64,
            ValType::V128 => wasm_encoder::ValType::V128,
            ValType::Ref(of) => wasm_encoder::ValType::Ref(of.to_wasmencoder_type()),
        }
    }
}
