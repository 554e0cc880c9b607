//! "Bodies": statements and typed expressions, numbers 12 to 23.

use super::image::{Expr, Function, Run, Statement};
use super::signature::Signature;
use super::Refusal;

const BOOL: &[u32] = &[0];
const U64: &[u32] = &[4];
const I64: &[u32] = &[8];
const F64: &[u32] = &[10];
const STRING: &[u32] = &[32];

const INTEGER_LITERAL: u32 = 0;
const UNSIGNED_LITERAL: u32 = 1;
const FLOAT_LITERAL: u32 = 2;
const LOCAL_BINDING: u32 = 3;
const RETURN: u32 = 4;
const FIELD_ASSIGNMENT: u32 = 5;
const BINARY: u32 = 6;
const UNARY: u32 = 7;

struct Scope<'a> {
    function: u32,
    locals: Vec<(u32, Run)>,
    fields: &'a [(u32, Run)],
    target: &'a Run,
}

/// A typed value: its type run, then its code and operands.
struct Value {
    ty: Run,
    code: Vec<u32>,
}

impl Value {
    fn of(ty: &[u32], code: Vec<u32>) -> Self {
        Value { ty: ty.to_vec(), code }
    }

    fn words(&self) -> impl Iterator<Item = &u32> {
        self.ty.iter().chain(&self.code)
    }
}

/// Writes a function's statement count and statements.
pub fn project(
    function: &Function,
    signature: &Signature,
    fields: &[(u32, Run)],
    target: &Run,
    words: &mut Vec<u32>,
) -> Result<(), Refusal> {
    let refused = |number| Err(Refusal::of(number, function.name));
    let Some(statements) = &function.body else {
        return refused(12);
    };
    let mut scope = Scope { function: function.name, locals: signature.params.clone(), fields, target };
    let mut returned = false;
    words.push(statements.len() as u32);
    for statement in statements {
        // "After Return any statement gives 23 unread."
        if returned {
            return refused(23);
        }
        match statement {
            Statement::Expr => return refused(15),
            Statement::Let(name, written, value) => {
                // "Let: 18 first, then the value under the written type; its own name is not yet seen."
                if find(&scope.locals, *name).is_some() {
                    return Err(Refusal::named(18, function.name, *name));
                }
                let value = scope.infer(value, written.as_deref(), LOCAL_BINDING)?;
                words.extend([1, *name]);
                words.extend(&value.ty);
                words.extend(value.words());
                scope.locals.push((*name, value.ty));
            }
            Statement::Return(value) => {
                let mismatch = |kind| Err(Refusal::detailed(22, function.name, vec![kind]));
                match (&signature.returns, value) {
                    (None, None) => words.extend([2, 0]),
                    (None, Some(_)) => return mismatch(0),
                    (Some(_), None) => return mismatch(1),
                    (Some(ty), Some(value)) => {
                        let value = scope.infer(value, Some(ty), RETURN)?;
                        words.extend([2, 1]);
                        words.extend(value.words());
                    }
                }
                returned = true;
            }
            Statement::Assign(to, value) => {
                // "Assign wants a field of SelfRef, else 19; an unknown one is 17."
                let Some(field) = receiver_field(to) else {
                    return refused(19);
                };
                let Some(ty) = find(fields, field) else {
                    return Err(Refusal::named(17, function.name, field));
                };
                let value = scope.infer(value, Some(ty), FIELD_ASSIGNMENT)?;
                words.extend([3, field]);
                words.extend(value.words());
            }
        }
    }
    if signature.returns.is_some() && !returned {
        return Err(Refusal::detailed(22, function.name, vec![2]));
    }
    Ok(())
}

/// "equal names, the last wins, as for fields"
fn find(rows: &[(u32, Run)], name: u32) -> Option<&Run> {
    rows.iter().rev().find(|row| row.0 == name).map(|row| &row.1)
}

fn receiver_field(expr: &Expr) -> Option<u32> {
    match expr {
        Expr::FieldAccess(field, receiver) if matches!(**receiver, Expr::SelfRef) => Some(*field),
        _ => None,
    }
}

impl Scope<'_> {
    fn mismatch(&self, context: u32, expected: &[u32], actual: &[u32]) -> Refusal {
        Refusal::detailed(20, self.function, [&[context], expected, actual].concat())
    }

    fn unknown(&self, number: u32, name: u32) -> Refusal {
        Refusal::named(number, self.function, name)
    }

    /// "An expression under an expected type (or none) ends with a test that its type equals it, in the caller's
    /// context."
    fn infer(&self, expr: &Expr, expected: Option<&[u32]>, context: u32) -> Result<Value, Refusal> {
        let value = self.typed(expr, expected)?;
        match expected {
            Some(ty) if ty != value.ty => Err(self.mismatch(context, ty, &value.ty)),
            _ => Ok(value),
        }
    }

    fn typed(&self, expr: &Expr, expected: Option<&[u32]>) -> Result<Value, Refusal> {
        let literal = |code: u32, bits: u64, default: &[u32], fits: &dyn Fn(&[u32]) -> bool| match expected {
            Some(ty) if !fits(ty) => {
                Err(self.mismatch([INTEGER_LITERAL, UNSIGNED_LITERAL, FLOAT_LITERAL][code as usize], ty, default))
            }
            _ => Ok(Value::of(expected.unwrap_or(default), vec![code, bits as u32, (bits >> 32) as u32])),
        };
        match expr {
            Expr::Int(bits) => literal(0, *bits, I64, &|ty| fits(i128::from(*bits as i64), ty)),
            Expr::UInt(bits) => literal(1, *bits, U64, &|ty| fits(i128::from(*bits), ty)),
            // "Float fits f32 and f64."
            Expr::Float(bits) => literal(2, *bits, F64, &|ty| matches!(ty, [9 | 10])),
            Expr::Bool(value) => Ok(Value::of(BOOL, vec![3, *value])),
            Expr::String(row) => Ok(Value::of(STRING, vec![4, *row])),
            Expr::Local(name) => match find(&self.locals, *name) {
                Some(ty) => Ok(Value::of(ty, vec![5, *name])),
                None => Err(self.unknown(16, *name)),
            },
            Expr::SelfRef => Ok(Value::of(self.target, vec![6])),
            Expr::FieldAccess(name, _) => match receiver_field(expr).and_then(|field| find(self.fields, field)) {
                Some(ty) => Ok(Value::of(ty, vec![7, *name])),
                None => Err(self.unknown(17, *name)),
            },
            Expr::Call(name) => Err(self.unknown(13, *name)),
            Expr::TraitMethodCall(method) => Err(self.unknown(14, *method)),
            Expr::Binary(operator, left, right) => self.binary(*operator, left, right, expected),
            Expr::Unary(operator, value) => self.unary(*operator, value, expected),
        }
    }

    fn binary(&self, operator: u32, left: &Expr, right: &Expr, expected: Option<&[u32]>) -> Result<Value, Refusal> {
        let (arithmetic, equality) = (operator < 4, operator == 4 || operator == 5);
        // "else for + - * / the expected type, else none"
        let hint = self.hint(left).or(self.hint(right)).or(expected.filter(|_| arithmetic));
        let left = self.infer(left, hint, BINARY)?;
        let right = self.infer(right, Some(&left.ty), BINARY)?;
        // "arithmetic and order want numeric (1 to 12 and 16); equality also bool and string"
        let allowed = is_numeric(&left.ty) || equality && (left.ty == BOOL || left.ty == STRING);
        if !allowed {
            return Err(Refusal::detailed(21, self.function, [&[operator], left.ty.as_slice()].concat()));
        }
        let ty = if arithmetic { left.ty.as_slice() } else { BOOL };
        Ok(Value::of(ty, [10, operator].iter().chain(left.words()).chain(right.words()).copied().collect()))
    }

    fn unary(&self, operator: u32, value: &Expr, expected: Option<&[u32]>) -> Result<Value, Refusal> {
        let value = self.infer(value, expected, UNARY)?;
        // "Neg wants signed numeric (floats and fixed too), Not wants bool."
        let allowed = if operator == 0 { is_signed(&value.ty) } else { value.ty == BOOL };
        if !allowed {
            // "operator (10 is -, 11 is !)"
            return Err(Refusal::detailed(21, self.function, [&[10 + operator], value.ty.as_slice()].concat()));
        }
        Ok(Value::of(&value.ty, [11, operator].iter().chain(value.words()).copied().collect()))
    }

    /// "the type of left if it is a known Local, SelfRef or known receiver field"
    fn hint(&self, expr: &Expr) -> Option<&[u32]> {
        match expr {
            Expr::Local(name) => find(&self.locals, *name).map(Run::as_slice),
            Expr::SelfRef => Some(self.target),
            _ => find(self.fields, receiver_field(expr)?).map(Run::as_slice),
        }
    }
}

fn is_numeric(ty: &[u32]) -> bool {
    matches!(ty, [1..=12] | [16, ..])
}

fn is_signed(ty: &[u32]) -> bool {
    matches!(ty, [5..=12] | [16, 1, _])
}

/// "Int and UInt: a width's two's complement or unsigned range; fixed32 and fixed64 as i32 and i64; f32 and f64 take
/// any."
fn fits(value: i128, ty: &[u32]) -> bool {
    let (signed, bits) = match *ty {
        [9 | 10] => return true,
        [code @ 1..=4] => (false, 8 << (code - 1)),
        [code @ 5..=8] => (true, 8 << (code - 5)),
        [11] => (true, 32),
        [12] => (true, 64),
        [16, signed, bits] => (signed == 1, bits),
        _ => return false,
    };
    let (least, beyond) = if signed { (-(1 << (bits - 1)), 1 << (bits - 1)) } else { (0, 1 << bits) };
    (least..beyond).contains(&value)
}
