//! The lowest layer of [walrus](https://docs.rs/walrus), and modules above it: types, instructions
//! and function bodies of WebAssembly modules, and type sections in normal and in canonical form.
//!
//! - [`arena`]: arenas whose ids are never reused, and sets of values over them.
//! - [`types`]: the table of a module's types, the records of a type section, and its
//!   normal and canonical forms.
//! - [`ir`]: instructions, sequences of them, locals and constant expressions.
//! - [`body`]: functions, their builders, and walks over their bodies.
//! - [`passes`]: deleting unused types, replacing functions and calls, adapters.
//! - [`text`](mod@text): type sections as text.
//! - [`wasm`]: type sections and whole modules in the binary format.
//!
//! Names are where walrus has them: at the root or in [`ir`].
//!
//! The crate is translated from sources in Rattle, whose contracts a checker has proved. A call
//! checks what it requires, and panics if that does not hold. Behind the line 'Contract' of its
//! docs are its clauses, in Rattle's words: the definitions are in the folders `specs` of the sources.
//!
//! # The type section that is needed
//!
//! ```
//! use ruffdresser::passes::delete_unused_types;
//! use ruffdresser::wasm::encode_types;
//! use ruffdresser::{ModuleTypes, ValType};
//!
//! let mut types = ModuleTypes::new();
//! types.add(&[ValType::F64], &[]);
//! let used = types.add(&[ValType::I32], &[]);
//! delete_unused_types(&mut types, &[used]);
//! let (groups, _) = types.emit()?;
//! assert_eq!(encode_types(&groups)?, [1, 0x60, 1, 0x7F, 0]);
//! # Ok::<(), Box<dyn std::error::Error>>(())
//! ```
#![forbid(unsafe_code)]
#![allow(unused_imports, unused_variables, dead_code, non_contiguous_range_endpoints)]

pub mod arena;
pub mod body;
pub mod ir;
pub mod passes;
#[doc(hidden)]
pub mod programs;
#[doc(hidden)]
pub mod rattle_std;
pub mod text;
pub mod types;
pub mod wasm;

pub use body::{FunctionBuilder, InstrSeqBuilder, LocalFunction};
pub use ir::{ConstExpr, ConstOp, InstrLocId, Local, LocalId, ModuleLocals};
pub use rattle_std::TryClone;
pub use rattle_std::alloc::AllocError;
pub use types::{
    AbstractHeapType, ArrayType, CompositeType, Data, DataId, Element, ElementId, FieldType,
    Function, FunctionId, FunctionType, Global, GlobalId, HeapType, IdsToIndices, IndicesToIds,
    Memory, MemoryId, ModuleTypes, RecGroup, RecGroupId, RefType, StorageType, StructType, Table,
    TableId, Tag, TagId, Type, TypeId, ValType,
};
