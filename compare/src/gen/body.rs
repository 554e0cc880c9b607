//! Random bodies: well-typed statements, and ones with a fault that is aimed at one number.

use super::model::{Words, NONE};
use super::rng::Rng;
use super::types::{self, BOOL, STRING};

const U64: u32 = 4;
const I64: u32 = 8;
const F64: u32 = 10;

/// What a body's expressions can speak of.
pub struct Scope<'a> {
    pub locals: Vec<(u32, Words)>,
    pub fields: &'a [(u32, Words)],
    pub target: &'a Words,
    pub returns: Option<Words>,
    pub names: usize,
    pub strings: usize,
}

impl Scope<'_> {
    /// A body that should be accepted, as far as values of the types in question can be had.
    pub fn good_body(&mut self, rng: &mut Rng) -> Vec<Words> {
        let mut statements = self.good_statements(rng);
        statements.extend(self.good_return(rng));
        statements
    }

    /// A body that should be refused with a number from 13 to 23.
    pub fn faulty_body(&mut self, rng: &mut Rng, number: u32) -> Vec<Words> {
        let mut statements = self.good_statements(rng);
        if number == 18 && self.locals.is_empty() {
            let (name, (value, ty)) = (rng.below(self.names) as u32, self.synth(rng, 1));
            self.locals.push((name, ty));
            statements.push([vec![1, name, 0], value].concat());
        }
        match number {
            22 => match rng.below(3) {
                0 if self.returns.is_some() => return statements,
                1 if self.returns.is_some() => statements.push(vec![2, 0]),
                _ => statements.push([vec![2, 1], self.synth(rng, 1).0].concat()),
            },
            23 => {
                statements.extend(self.good_return(rng));
                if statements.last().is_none_or(|statement| statement[0] != 2) {
                    statements.push(vec![2, 0]);
                }
            }
            _ => statements.push(self.faulty_statement(rng, number)),
        }
        // What stands behind the fault is read only as far as the image must be readable.
        for _ in 0..rng.between((number == 23).into(), 2) {
            statements.push(self.any_statement(rng));
        }
        statements
    }

    /// Statements of any kind with no regard to types.
    pub fn any_body(&mut self, rng: &mut Rng) -> Vec<Words> {
        (0..rng.below(5)).map(|_| self.any_statement(rng)).collect()
    }

    fn good_statements(&mut self, rng: &mut Rng) -> Vec<Words> {
        (0..rng.below(5)).filter_map(|_| self.good_statement(rng)).collect()
    }

    fn good_statement(&mut self, rng: &mut Rng) -> Option<Words> {
        if rng.chance(35) && !self.fields.is_empty() {
            let (field, _) = rng.pick(self.fields);
            let ty = find(self.fields, *field)?.clone();
            let value = self.check(rng, &ty, 3)?;
            return Some([vec![3, 7, *field, 6], value].concat());
        }
        let name = self.unknown_local(rng)?;
        let (written, value, ty) = if rng.chance(50) {
            let ty = if rng.chance(70) { types::simple(rng) } else { self.known_type(rng) };
            let value = self.check(rng, &ty, 3)?;
            ([vec![1], ty.clone()].concat(), value, ty)
        } else {
            let (value, ty) = self.synth(rng, 3);
            (vec![0], value, ty)
        };
        self.locals.push((name, ty));
        Some([vec![1, name], written, value].concat())
    }

    fn good_return(&mut self, rng: &mut Rng) -> Option<Words> {
        match self.returns.clone() {
            None => rng.chance(40).then(|| vec![2, 0]),
            Some(ty) => {
                let value = self.check(rng, &ty, 4).unwrap_or_else(|| self.synth(rng, 2).0);
                Some([vec![2, 1], value].concat())
            }
        }
    }

    fn faulty_statement(&mut self, rng: &mut Rng, number: u32) -> Words {
        let any_name = rng.below(self.names) as u32;
        let fault = match number {
            13 => {
                let arguments: Vec<Words> = (0..rng.below(4)).map(|_| self.any(rng, 2)).collect();
                [vec![8, any_name, arguments.len() as u32], arguments.concat()].concat()
            }
            14 => {
                let count = rng.below(3) as u32;
                let parts: Vec<Words> = (0..=count).map(|_| self.any(rng, 2)).collect();
                [vec![9, any_name, rng.below(self.names) as u32, count], parts.concat()].concat()
            }
            15 => return [vec![0], self.any(rng, 3)].concat(),
            16 => vec![5, self.unknown_local(rng).unwrap_or(any_name)],
            17 if rng.chance(50) => vec![7, any_name, 6],
            17 => [vec![7, any_name], self.any(rng, 2)].concat(),
            18 => {
                let name = rng.pick(&self.locals).0;
                return [vec![1, name, 0], self.any(rng, 2)].concat();
            }
            19 => return [vec![3], self.not_a_field(rng), self.any(rng, 2)].concat(),
            20 => return self.mismatched(rng),
            _ => self.invalid_operation(rng),
        };
        let fault = self.around(rng, fault);
        self.statement_with(rng, fault)
    }

    /// A fault deeper in an expression; what is typed before it is well typed more often than not.
    fn around(&mut self, rng: &mut Rng, fault: Words) -> Words {
        match rng.below(6) {
            0 => [vec![10, rng.below(10) as u32], fault, self.any(rng, 1)].concat(),
            1 => {
                let left = self.synth(rng, 1).0;
                [vec![10, rng.below(10) as u32], left, fault].concat()
            }
            2 => [vec![11, rng.below(2) as u32], fault].concat(),
            _ => fault,
        }
    }

    /// A statement whose value is given.
    fn statement_with(&mut self, rng: &mut Rng, value: Words) -> Words {
        match rng.below(5) {
            0 if self.returns.is_some() => [vec![2, 1], value].concat(),
            1 if !self.fields.is_empty() => [vec![3, 7, rng.pick(self.fields).0, 6], value].concat(),
            2 => [vec![1, self.let_name(rng), 1], types::simple(rng), value].concat(),
            _ => [vec![1, self.let_name(rng), 0], value].concat(),
        }
    }

    /// Number 20 in any of its contexts.
    fn mismatched(&mut self, rng: &mut Rng) -> Words {
        let ty = if rng.chance(75) { types::simple(rng) } else { self.known_type(rng) };
        let mut value = match rng.below(4) {
            0 => literal(0, outside(rng, &ty) as u64),
            1 => literal(1, outside(rng, &ty) as u64),
            2 => literal(2, rng.next()),
            _ => self.synth(rng, 2).0,
        };
        if rng.chance(25) {
            value = [vec![11, rng.below(2) as u32], value].concat();
        }
        match rng.below(5) {
            4 => {
                // Both sides have a type of their own, so that the left one's is the hint.
                let value = [vec![10, rng.below(10) as u32], self.known(rng), self.known(rng)].concat();
                self.statement_with(rng, value)
            }
            0 => {
                let left = self.check(rng, &ty, 1).unwrap_or(vec![6]);
                let both = if rng.chance(70) { [left, value] } else { [value, left] };
                let value = [vec![10, rng.below(10) as u32], both.concat()].concat();
                self.statement_with(rng, value)
            }
            1 => self.statement_with(rng, value),
            _ => [vec![1, self.let_name(rng), 1], ty, value].concat(),
        }
    }

    /// Number 21: a unary or binary operator on a type that it does not take.
    fn invalid_operation(&mut self, rng: &mut Rng) -> Words {
        let (value, ty) = self.synth(rng, 1);
        if rng.chance(40) {
            return [vec![11, rng.below(2) as u32], value].concat();
        }
        let (left, ty) = match rng.below(4) {
            0 => (vec![6], self.target.clone()),
            1 => (vec![3, 1], vec![BOOL]),
            2 if self.strings > 0 => (vec![4, rng.below(self.strings) as u32], vec![STRING]),
            _ => (value, ty),
        };
        let right = self.check(rng, &ty, 1).unwrap_or(vec![6]);
        [vec![10, rng.below(10) as u32], left, right].concat()
    }

    fn not_a_field(&mut self, rng: &mut Rng) -> Words {
        match rng.below(4) {
            0 => vec![6],
            1 => vec![5, rng.below(self.names) as u32],
            2 => [vec![7, rng.below(self.names) as u32, 7, rng.below(self.names) as u32], vec![6]].concat(),
            _ => self.any(rng, 2),
        }
    }

    /// Any statement; a Let's type is simple.
    fn any_statement(&mut self, rng: &mut Rng) -> Words {
        match rng.below(6) {
            0 => [vec![0], self.any(rng, 2)].concat(),
            1 => [vec![1, rng.below(self.names) as u32, 1], types::simple(rng), self.any(rng, 2)].concat(),
            2 => [vec![1, rng.below(self.names) as u32, 0], self.any(rng, 3)].concat(),
            3 if rng.chance(50) => vec![2, 0],
            3 => [vec![2, 1], self.any(rng, 2)].concat(),
            4 if !self.fields.is_empty() => [vec![3, 7, rng.pick(self.fields).0, 6], self.any(rng, 2)].concat(),
            _ => [vec![3], self.any(rng, 2), self.any(rng, 2)].concat(),
        }
    }

    /// Any expression of some nesting, with no regard to types.
    pub fn any(&mut self, rng: &mut Rng, depth: usize) -> Words {
        let name = rng.below(self.names) as u32;
        match rng.below(if depth > 0 { 14 } else { 8 }) {
            code @ 0..=2 => literal(code as u32, interesting(rng)),
            3 => vec![3, rng.below(2) as u32],
            4 if self.strings > 0 => vec![4, rng.below(self.strings) as u32],
            5 if !self.locals.is_empty() => vec![5, rng.pick(&self.locals).0],
            5 => vec![5, name],
            6 if !self.fields.is_empty() => vec![7, rng.pick(self.fields).0, 6],
            8 => [vec![7, name], self.any(rng, depth - 1)].concat(),
            9 => {
                let arguments: Vec<Words> = (0..rng.below(3)).map(|_| self.any(rng, depth - 1)).collect();
                [vec![8, name, arguments.len() as u32], arguments.concat()].concat()
            }
            10 => [vec![9, name, rng.below(self.names) as u32, 0], self.any(rng, depth - 1)].concat(),
            11 => [vec![11, rng.below(2) as u32], self.any(rng, depth - 1)].concat(),
            12 | 13 => [vec![10, rng.below(10) as u32], self.any(rng, depth - 1), self.any(rng, depth - 1)].concat(),
            _ => vec![6],
        }
    }

    /// An expression that has the type when it is expected, if one is found.
    pub fn check(&mut self, rng: &mut Rng, ty: &Words, depth: usize) -> Option<Words> {
        if depth > 0 && rng.chance(45) {
            let compound = self.check_compound(rng, ty, depth - 1);
            if compound.is_some() {
                return compound;
            }
        }
        let mut leaves: Vec<Words> = vec![];
        leaves.extend(self.locals.iter().filter(|row| find(&self.locals, row.0) == Some(ty)).map(|row| vec![5, row.0]));
        leaves
            .extend(self.fields.iter().filter(|row| find(self.fields, row.0) == Some(ty)).map(|row| vec![7, row.0, 6]));
        if ty == self.target {
            leaves.push(vec![6]);
        }
        if *ty == [BOOL] {
            leaves.push(vec![3, rng.below(2) as u32]);
        }
        if *ty == [STRING] && self.strings > 0 {
            leaves.push(vec![4, rng.below(self.strings) as u32]);
        }
        if matches!(ty[..], [9 | 10]) {
            leaves.push(literal(rng.below(3) as u32, interesting(rng)));
        }
        if let Some((least, greatest)) = range(ty) {
            let near = [least, greatest, 0, 1, -1, least + 1, greatest - 1, i128::from(rng.next() as i64)];
            let value = (*rng.pick(&near)).clamp(least, greatest);
            if i64::try_from(value).is_ok() {
                leaves.push(literal(0, value as u64));
            }
            if u64::try_from(value).is_ok() {
                leaves.push(literal(1, value as u64));
            }
        }
        (!leaves.is_empty()).then(|| rng.pick(&leaves).clone())
    }

    fn check_compound(&mut self, rng: &mut Rng, ty: &Words, depth: usize) -> Option<Words> {
        if *ty == [BOOL] {
            if rng.chance(25) {
                return Some([vec![11, 1], self.check(rng, ty, depth)?].concat());
            }
            let (left, operand) = self.synth(rng, depth);
            let right = self.check(rng, &operand, depth)?;
            let operator = match operand[..] {
                [BOOL] | [STRING] => 4 + rng.below(2),
                _ if is_numeric(&operand) => 4 + rng.below(6),
                _ => return None,
            };
            return Some([vec![10, operator as u32], left, right].concat());
        }
        if !is_numeric(ty) {
            return None;
        }
        if is_signed(ty) && rng.chance(25) {
            return Some([vec![11, 0], self.check(rng, ty, depth)?].concat());
        }
        Some([vec![10, rng.below(4) as u32], self.check(rng, ty, depth)?, self.check(rng, ty, depth)?].concat())
    }

    /// An expression that is well typed with nothing expected, and its type.
    fn synth(&mut self, rng: &mut Rng, depth: usize) -> (Words, Words) {
        if depth > 0 && rng.chance(40) {
            let (left, ty) = self.synth(rng, depth - 1);
            if is_signed(&ty) && rng.chance(25) {
                return ([vec![11, 0], left].concat(), ty);
            }
            let right = self.check(rng, &ty, depth - 1);
            if let (true, Some(right)) = (is_numeric(&ty), right) {
                let operator = rng.below(10) as u32;
                let result = if operator < 4 { ty } else { vec![BOOL] };
                return ([vec![10, operator], left, right].concat(), result);
            }
            return (left, ty);
        }
        match rng.below(9) {
            0 => (literal(0, interesting(rng)), vec![I64]),
            1 => (literal(1, interesting(rng)), vec![U64]),
            2 => (literal(2, rng.next()), vec![F64]),
            3 if self.strings > 0 => (vec![4, rng.below(self.strings) as u32], vec![STRING]),
            4 => (vec![6], self.target.clone()),
            5 | 6 if !self.locals.is_empty() => {
                let name = rng.pick(&self.locals).0;
                (vec![5, name], find(&self.locals, name).cloned().unwrap_or_default())
            }
            7 | 8 if !self.fields.is_empty() => {
                let name = rng.pick(self.fields).0;
                (vec![7, name, 6], find(self.fields, name).cloned().unwrap_or_default())
            }
            _ => (vec![3, rng.below(2) as u32], vec![BOOL]),
        }
    }

    /// A local, a field or the receiver.
    fn known(&mut self, rng: &mut Rng) -> Words {
        let locals = self.locals.iter().map(|row| vec![5, row.0]);
        let known: Vec<Words> =
            locals.chain(self.fields.iter().map(|row| vec![7, row.0, 6])).chain([vec![6]]).collect();
        rng.pick(&known).clone()
    }

    /// A type that something in scope has.
    fn known_type(&mut self, rng: &mut Rng) -> Words {
        let known: Vec<&Words> = self.locals.iter().chain(self.fields).map(|row| &row.1).chain([self.target]).collect();
        (*rng.pick(&known)).clone()
    }

    fn unknown_local(&self, rng: &mut Rng) -> Option<u32> {
        let first = rng.below(self.names);
        (0..self.names)
            .map(|step| ((first + step) % self.names) as u32)
            .find(|name| find(&self.locals, *name).is_none())
    }

    fn let_name(&self, rng: &mut Rng) -> u32 {
        self.unknown_local(rng).unwrap_or(0)
    }
}

fn literal(code: u32, bits: u64) -> Words {
    vec![code, bits as u32, (bits >> 32) as u32]
}

/// Equal names: the last wins.
fn find(rows: &[(u32, Words)], name: u32) -> Option<&Words> {
    rows.iter().rev().find(|row| row.0 == name).map(|row| &row.1)
}

/// Bits of a number at or near a limit of some width, or any.
fn interesting(rng: &mut Rng) -> u64 {
    let near = (1u64 << rng.below(64)).wrapping_add(rng.below(3) as u64).wrapping_sub(1);
    match rng.below(6) {
        0 => rng.below(3) as u64,
        1 | 2 => near,
        3 => near.wrapping_neg(),
        4 => *rng.pick(&[0, u64::MAX, 1 << 63, (1 << 63) - 1, u64::from(NONE), u64::from(NONE) << 32]),
        _ => rng.next(),
    }
}

/// A number just outside a type's range, or any.
fn outside(rng: &mut Rng, ty: &Words) -> i128 {
    match range(ty) {
        Some((least, greatest)) if rng.chance(80) => *rng.pick(&[least - 1, greatest + 1]),
        _ => i128::from(interesting(rng)),
    }
}

/// The integers of a type that integer literals fit.
fn range(ty: &Words) -> Option<(i128, i128)> {
    let (signed, bits) = match ty[..] {
        [code @ 1..=4] => (false, 4 << code),
        [code @ 5..=8] => (true, 4 << (code - 4)),
        [11] => (true, 32),
        [12] => (true, 64),
        [16, signed, bits] => (signed == 1, bits),
        _ => return None,
    };
    Some(if signed { (-(1 << (bits - 1)), (1 << (bits - 1)) - 1) } else { (0, (1 << bits) - 1) })
}

fn is_numeric(ty: &Words) -> bool {
    matches!(ty[..], [9 | 10]) || range(ty).is_some()
}

fn is_signed(ty: &Words) -> bool {
    matches!(ty[..], [9 | 10]) || range(ty).is_some_and(|(least, _)| least < 0)
}
