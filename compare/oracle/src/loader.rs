//! Reads a flat image into the Rust's `CompiledSchema`, from document 01, with 02's rule that texts are UTF-8, and through
//! the registry's own setters. It refuses exactly what is unreadable, so that number 2 is judged twice.

use std::collections::{HashMap, HashSet};

use smol_str::SmolStr;

use crate::answer::NONE;
use crate::ast::{EnumBacking, PrimitiveType, TypeParam};
use crate::cursor::{Cursor, Read, Tables};
use crate::ir::{
    BinOp, CompiledSchema, ConfigDef, EnumDef, Expr, FieldDef, FieldEncoding, FlagsDef, FnBody, FnParamDef,
    GenericAliasDef, ImplDef, ImplFnDef, MessageDef, NewtypeDef, ResolvedAnnotations, ResolvedType, Statement,
    TraitDef, TraitFnDef, TypeDef, TypeId, TypeRegistry, UnaryOp, UnionDef,
};
use crate::span::{Span, Spanned};
use crate::types;

const IMAGE_BYTES: usize = 65_536;
const TRAILER_BYTES: usize = 24;
const NAMES: usize = 1_024;
const STRINGS: usize = 1_024;
const DEFINITIONS: usize = 256;
const FUNCTIONS: u32 = 64;
const PARAMETERS: u32 = 32;
const LETS: usize = 32;
const STATEMENTS: u32 = 256;
const FIELDS: u32 = 256;
const TYPE_PARAMETERS: u32 = 8;
const NESTING: u32 = 32;

const OPERATORS: [BinOp; 10] =
    [BinOp::Add, BinOp::Sub, BinOp::Mul, BinOp::Div, BinOp::Eq, BinOp::Ne, BinOp::Lt, BinOp::Le, BinOp::Gt, BinOp::Ge];

/// An image that the Rust can be asked about.
pub struct Loaded {
    pub(crate) schema: CompiledSchema,
    /// Name rows by their texts, which are all different.
    pub(crate) rows: HashMap<SmolStr, u32>,
}

/// The image's schema, or why it is unreadable.
pub fn load(image: &[u8]) -> Read<Loaded> {
    let (texts, names, strings, pool, definitions) = sections(image)?;

    let name_texts: Vec<&str> = names.iter().map(|row| text(texts, row[0], row[1])).collect::<Read<_>>()?;
    if name_texts.iter().any(|text| text.is_empty() || text.len() > 255) {
        return Err("a name's length");
    }
    if name_texts.iter().collect::<HashSet<_>>().len() < names.len() {
        return Err("two names are equal");
    }
    let tables = Tables {
        names: name_texts.into_iter().map(SmolStr::new).collect(),
        strings: strings.iter().map(|row| text(texts, row[0], row[1]).map(String::from)).collect::<Read<_>>()?,
        pool,
    };
    let registry = registry(&tables, &names, &definitions)?;
    let schema = CompiledSchema {
        namespace: Vec::new(),
        annotations: ResolvedAnnotations::default(),
        registry,
        declarations: Vec::new(),
        constants: HashMap::new(),
    };
    let rows = (0..).zip(&tables.names).map(|(row, text)| (text.clone(), row)).collect();
    Ok(Loaded { schema, rows })
}

type Sections<'a> = (&'a [u8], Vec<[u32; 4]>, Vec<[u32; 2]>, Vec<u32>, Vec<[u32; 2]>);

/// The five sections that the trailer tells apart, as rows.
fn sections(image: &[u8]) -> Read<Sections<'_>> {
    if image.len() < TRAILER_BYTES || image.len() > IMAGE_BYTES {
        return Err("the image's length");
    }
    let end = image.len() - TRAILER_BYTES;
    let [trailer]: [[u32; 6]; 1] = rows(&image[end..])?.try_into().map_err(|_| "the trailer")?;
    if trailer[4] != 1 || trailer[5] as usize != image.len() {
        return Err("the trailer's format or length");
    }
    let starts: Vec<usize> = trailer[..4].iter().map(|start| *start as usize).chain([end]).collect();
    if !starts.is_sorted() {
        return Err("the sections' order");
    }
    let section = |index: usize| &image[starts[index]..starts[index + 1]];
    let (names, strings, definitions) = (rows(section(0))?, rows(section(1))?, rows(section(3))?);
    if names.len() > NAMES || strings.len() > STRINGS || definitions.len() > DEFINITIONS {
        return Err("too many rows");
    }
    let pool = rows(section(2))?.into_iter().map(|[word]| word).collect();
    Ok((&image[..starts[0]], names, strings, pool, definitions))
}

fn rows<const N: usize>(bytes: &[u8]) -> Read<Vec<[u32; N]>> {
    if bytes.len() % (4 * N) != 0 {
        return Err("a section is not whole rows");
    }
    let word = |row: &[u8], index: usize| u32::from_le_bytes(row[4 * index..][..4].try_into().unwrap());
    Ok(bytes.chunks(4 * N).map(|row| std::array::from_fn(|index| word(row, index))).collect())
}

/// A row's own text, whatever stands beside it.
fn text(texts: &[u8], start: u32, length: u32) -> Read<&str> {
    let (start, length) = (start as usize, length as usize);
    let bytes = texts.get(start..start + length).ok_or("a text leaves its section")?;
    std::str::from_utf8(bytes).map_err(|_| "a text is not UTF-8")
}

/// Every row is read, used or not.
fn registry(tables: &Tables, names: &[[u32; 4]], definitions: &[[u32; 2]]) -> Read<TypeRegistry> {
    let mut registry = TypeRegistry::new();
    let ids: Vec<TypeId> = definitions.iter().map(|_| registry.register_unbound_stub()).collect();

    for (text, [_, _, definition, alias]) in tables.names.iter().zip(names) {
        if *definition != NONE {
            let id = ids.get(*definition as usize).ok_or("no such definition row")?;
            registry.bind_name(text.clone(), *id);
        }
        if *alias != NONE {
            registry.register_resolved_alias(text.clone(), types::resolved(&mut Cursor::new(tables, *alias))?);
        }
    }
    for (id, [kind, start]) in ids.into_iter().zip(definitions) {
        let cursor = &mut Cursor::new(tables, *start);
        let definition = match kind {
            0 => other(id),
            1 => Some(TypeDef::Message(message(cursor)?)),
            2 => Some(TypeDef::GenericAlias(generic_alias(cursor)?)),
            3 => Some(TypeDef::Trait(trait_def(cursor, id, &mut registry)?)),
            4 => Some(TypeDef::Impl(impl_def(cursor, id, &mut registry)?)),
            _ => return Err("no such kind of definition"),
        };
        if let Some(definition) = definition {
            registry.fill_stub(id, definition);
        }
    }
    Ok(registry)
}

/// Kind 0 is any definition that the port does not look into; rows take turns at being each of them, or a stub.
fn other(id: TypeId) -> Option<TypeDef> {
    let (name, span, annotations) = (SmolStr::new("other"), Span::empty(0), ResolvedAnnotations::default());
    Some(match id.index() % 6 {
        0 => return None,
        1 => TypeDef::Enum(EnumDef {
            name,
            span,
            annotations,
            backing: Some(EnumBacking::U8),
            variants: vec![],
            tombstones: vec![],
            wire_bits: 8,
        }),
        2 => TypeDef::Flags(FlagsDef { name, span, annotations, bits: vec![], tombstones: vec![], wire_bytes: 1 }),
        3 => {
            TypeDef::Union(UnionDef { name, span, annotations, variants: vec![], tombstones: vec![], wire_size: None })
        }
        4 => TypeDef::Newtype(NewtypeDef { name, span, annotations, inner_type: unread(), terminal_type: unread() }),
        _ => TypeDef::Config(ConfigDef { name, span, annotations, fields: vec![] }),
    })
}

/// A type where the Rust's records have a field that the port never reads.
fn unread() -> ResolvedType {
    ResolvedType::Primitive(PrimitiveType::Void)
}

fn message(cursor: &mut Cursor) -> Read<MessageDef> {
    let mut ordinal = 0;
    let fields = cursor.list(FIELDS, |cursor| {
        ordinal += 1;
        Ok(FieldDef {
            name: cursor.name()?,
            span: Span::empty(0),
            ordinal,
            resolved_type: types::resolved(cursor)?,
            encoding: FieldEncoding::default_encoding(),
            annotations: ResolvedAnnotations::default(),
            constraint: None,
        })
    })?;
    Ok(MessageDef {
        name: SmolStr::new("message"),
        span: Span::empty(0),
        fields,
        tombstones: vec![],
        annotations: ResolvedAnnotations::default(),
        wire_size: None,
    })
}

fn generic_alias(cursor: &mut Cursor) -> Read<GenericAliasDef> {
    Ok(GenericAliasDef {
        name: SmolStr::new("alias"),
        span: Span::empty(0),
        type_params: cursor.list(TYPE_PARAMETERS, Cursor::name)?,
        target_type: types::expression(cursor)?,
        annotations: ResolvedAnnotations::default(),
    })
}

fn trait_def(cursor: &mut Cursor, id: TypeId, registry: &mut TypeRegistry) -> Read<TraitDef> {
    let name = cursor.name()?;
    let type_params = cursor.list(TYPE_PARAMETERS, |cursor| {
        Ok(TypeParam { name: Spanned::new(cursor.name()?, Span::empty(0)), bounds: vec![] })
    })?;
    let functions = cursor.list(FUNCTIONS, |cursor| {
        let name = cursor.name()?;
        let params = cursor.list(PARAMETERS, |cursor| {
            Ok(FnParamDef { name: cursor.name()?, ty: unread(), unresolved_ty: types::expression(cursor)? })
        })?;
        let return_type = match cursor.below(3)? {
            0 => None,
            1 => Some(types::resolved(cursor)?),
            _ => {
                registry.set_trait_fn_return_type(id, name.clone(), types::expression(cursor)?);
                None
            }
        };
        Ok(TraitFnDef { name, params, return_type })
    })?;
    if functions.iter().map(|function| &function.name).collect::<HashSet<_>>().len() < functions.len() {
        return Err("a trait lists a function twice");
    }
    let annotations = ResolvedAnnotations::default();
    Ok(TraitDef { name, type_params, fields: vec![], functions, annotations, span: Span::empty(0) })
}

fn impl_def(cursor: &mut Cursor, id: TypeId, registry: &mut TypeRegistry) -> Read<ImplDef> {
    let trait_number = cursor.word()?;
    if trait_number != NONE {
        registry.set_impl_trait_id(id, TypeId(trait_number));
    }
    Ok(ImplDef {
        trait_name: cursor.name()?,
        target_type: types::resolved(cursor)?,
        type_args: cursor.list(TYPE_PARAMETERS, types::resolved)?,
        functions: cursor.list(FUNCTIONS, impl_fn)?,
        annotations: ResolvedAnnotations::default(),
        span: Span::empty(0),
    })
}

fn impl_fn(cursor: &mut Cursor) -> Read<ImplFnDef> {
    use crate::ast::TypeExpr;
    let name = cursor.name()?;
    let params = cursor.list(PARAMETERS, |cursor| {
        let unresolved_ty = TypeExpr::Primitive(PrimitiveType::Void);
        Ok(FnParamDef { name: cursor.name()?, ty: types::resolved(cursor)?, unresolved_ty })
    })?;
    let return_type = if cursor.flag()? { Some(types::resolved(cursor)?) } else { None };
    let body = if cursor.flag()? { FnBody::Block(block(cursor)?) } else { FnBody::External };
    Ok(ImplFnDef { name, params, return_type, body })
}

fn block(cursor: &mut Cursor) -> Read<Vec<Statement>> {
    let statements = cursor.list(STATEMENTS, statement)?;
    let lets = statements.iter().filter(|statement| matches!(statement, Statement::Let { .. })).count();
    if lets > LETS {
        Err("too many lets")
    } else {
        Ok(statements)
    }
}

fn statement(cursor: &mut Cursor) -> Read<Statement> {
    Ok(match cursor.below(4)? {
        0 => Statement::Expr(expr(cursor, NESTING)?),
        1 => {
            let name = cursor.name()?;
            let ty = if cursor.flag()? { Some(types::resolved(cursor)?) } else { None };
            Statement::Let { name, ty, value: expr(cursor, NESTING)? }
        }
        2 => Statement::Return(if cursor.flag()? { Some(expr(cursor, NESTING)?) } else { None }),
        _ => Statement::Assign { target: expr(cursor, NESTING)?, value: expr(cursor, NESTING)? },
    })
}

/// An expression whose nesting may be so many.
fn expr(cursor: &mut Cursor, nesting: u32) -> Read<Expr> {
    if nesting == 0 {
        return Err("an expression is nested too deeply");
    }
    let inner = |cursor: &mut Cursor| expr(cursor, nesting - 1).map(Box::new);
    Ok(match cursor.below(12)? {
        0 => Expr::Int(cursor.long()? as i64),
        1 => Expr::UInt(cursor.long()?),
        2 => Expr::Float(f64::from_bits(cursor.long()?)),
        3 => Expr::Bool(cursor.flag()?),
        4 => Expr::String(cursor.string()?),
        5 => Expr::Local(cursor.name()?),
        6 => Expr::SelfRef,
        7 => {
            let field = cursor.name()?;
            Expr::FieldAccess(inner(cursor)?, field)
        }
        8 => Expr::Call(cursor.name()?, cursor.list(PARAMETERS, |cursor| expr(cursor, nesting - 1))?),
        9 => {
            let (trait_name, method_name) = (cursor.name()?, cursor.name()?);
            let count = cursor.below(PARAMETERS + 1)?;
            let receiver = inner(cursor)?;
            let args = (0..count).map(|_| expr(cursor, nesting - 1)).collect::<Read<_>>()?;
            Expr::TraitMethodCall { trait_name, method_name, receiver, args }
        }
        10 => Expr::Binary(OPERATORS[cursor.below(10)? as usize], inner(cursor)?, inner(cursor)?),
        _ => Expr::Unary(if cursor.flag()? { UnaryOp::Not } else { UnaryOp::Neg }, inner(cursor)?),
    })
}
