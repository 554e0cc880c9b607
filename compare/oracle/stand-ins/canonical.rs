//! Stands for `crate::canonical`: the schema's hash is asked by `CompiledSchema::hash_hex` alone, which nothing calls.

use crate::ir::CompiledSchema;

pub fn schema_hash(_schema: &CompiledSchema) -> [u8; 32] {
    [0; 32]
}
