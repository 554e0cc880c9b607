//! Types and type expressions of document 01, read into the Rust's `ResolvedType` and `TypeExpr`.

use crate::ast::{PrimitiveType, SemanticType, SubByteType, TypeExpr};
use crate::cursor::{Cursor, Read};
use crate::ir::{ResolvedType, TypeId};
use crate::span::{Span, Spanned};

const RUN_WORDS: usize = 64;
const BIT_NAMES: u32 = 62;

use PrimitiveType::{Bool, Fixed32, Fixed64, Void, F32, F64, I16, I32, I64, I8, U16, U32, U64, U8};
pub const PRIMITIVES: [PrimitiveType; 14] =
    [Bool, U8, U16, U32, U64, I8, I16, I32, I64, F32, F64, Fixed32, Fixed64, Void];

use SemanticType::{Bytes, Hash, Rgb, String, Timestamp, Uuid};
pub const SEMANTICS: [SemanticType; 6] = [String, Bytes, Rgb, Uuid, Timestamp, Hash];

/// A resolved type, of at most 64 words.
pub fn resolved(cursor: &mut Cursor) -> Read<ResolvedType> {
    cursor.within(RUN_WORDS, resolved_node)
}

/// A type expression, of at most 64 words.
pub fn expression(cursor: &mut Cursor) -> Read<TypeExpr> {
    cursor.within(RUN_WORDS, expression_node)
}

fn sub_byte(cursor: &mut Cursor) -> Read<SubByteType> {
    let signed = cursor.flag()?;
    let bits = cursor.below(65)? as u8;
    if bits == 0 {
        Err("a sub-byte type of no bits")
    } else {
        Ok(SubByteType { signed, bits })
    }
}

fn resolved_node(cursor: &mut Cursor) -> Read<ResolvedType> {
    use ResolvedType as R;
    let part = |cursor: &mut Cursor| resolved_node(cursor).map(Box::new);
    Ok(match cursor.word()? {
        code @ 0..=13 => R::Primitive(PRIMITIVES[code as usize]),
        16 => R::SubByte(sub_byte(cursor)?),
        code @ 32..=37 => R::Semantic(SEMANTICS[code as usize - 32]),
        48 => R::Named(TypeId(cursor.word()?)),
        64 => R::Optional(part(cursor)?),
        65 => R::Array(part(cursor)?),
        66 => {
            let length = cursor.long()?;
            R::FixedArray(part(cursor)?, length)
        }
        67 => R::Set(part(cursor)?),
        68 => R::Map(part(cursor)?, part(cursor)?),
        69 => R::Result(part(cursor)?, part(cursor)?),
        70 => R::Vec2(part(cursor)?),
        71 => R::Vec3(part(cursor)?),
        72 => R::Vec4(part(cursor)?),
        73 => R::Quat(part(cursor)?),
        74 => R::Mat3(part(cursor)?),
        75 => R::Mat4(part(cursor)?),
        80 => R::BitsInline(cursor.list(BIT_NAMES, Cursor::name)?),
        _ => return Err("no such type code"),
    })
}

fn expression_node(cursor: &mut Cursor) -> Read<TypeExpr> {
    use TypeExpr as E;
    let part = |cursor: &mut Cursor| Ok(Box::new(Spanned::new(expression_node(cursor)?, Span::empty(0))));
    Ok(match cursor.word()? {
        code @ 0..=13 => E::Primitive(PRIMITIVES[code as usize]),
        16 => E::SubByte(sub_byte(cursor)?),
        code @ 32..=37 => E::Semantic(SEMANTICS[code as usize - 32]),
        48 => E::Named(cursor.name()?),
        49 => E::Qualified(cursor.name()?, cursor.name()?),
        50 => E::Generic(cursor.name()?, part(cursor)?),
        64 => E::Optional(part(cursor)?),
        65 => E::Array(part(cursor)?),
        66 => {
            let length = cursor.long()?;
            E::FixedArray(part(cursor)?, length)
        }
        67 => E::Set(part(cursor)?),
        68 => E::Map(part(cursor)?, part(cursor)?),
        69 => E::Result(part(cursor)?, part(cursor)?),
        70 => E::Vec2(part(cursor)?),
        71 => E::Vec3(part(cursor)?),
        72 => E::Vec4(part(cursor)?),
        73 => E::Quat(part(cursor)?),
        74 => E::Mat3(part(cursor)?),
        75 => E::Mat4(part(cursor)?),
        80 => E::BitsInline(cursor.list(BIT_NAMES, Cursor::name)?),
        _ => return Err("no such type expression code"),
    })
}
