//! Edges of bodies: literals at each limit, operators, statements.

use super::{literal, Edges, BOOL, I8, STRING, U64, U8};
use crate::gen::model::Def;
use crate::gen::tiny::{with_body, M, MESSAGE, P, T, TRAIT, X};

impl Edges {
    /// Each limit of each width, and floats.
    pub(super) fn literals(&mut self) {
        let integers: [(&str, &[u32], i128, i128); 16] = [
            ("u8", &[1], 0, 255),
            ("u16", &[2], 0, 65_535),
            ("u32", &[3], 0, u32::MAX.into()),
            ("u64", &[4], 0, u64::MAX.into()),
            ("i8", &[5], -128, 127),
            ("i16", &[6], -32_768, 32_767),
            ("i32", &[7], i32::MIN.into(), i32::MAX.into()),
            ("i64", &[8], i64::MIN.into(), i64::MAX.into()),
            ("fixed32", &[11], i32::MIN.into(), i32::MAX.into()),
            ("fixed64", &[12], i64::MIN.into(), i64::MAX.into()),
            ("signed-1", &[16, 1, 1], -1, 0),
            ("unsigned-1", &[16, 0, 1], 0, 1),
            ("signed-63", &[16, 1, 63], -(1 << 62), (1 << 62) - 1),
            ("unsigned-63", &[16, 0, 63], 0, (1 << 63) - 1),
            ("signed-64", &[16, 1, 64], i64::MIN.into(), i64::MAX.into()),
            ("unsigned-64", &[16, 0, 64], 0, u64::MAX.into()),
        ];
        for (label, ty, least, greatest) in integers {
            for (edge, value) in
                [("least", least), ("under", least - 1), ("greatest", greatest), ("over", greatest + 1)]
            {
                if i64::try_from(value).is_ok() {
                    self.value(format!("int-{label}-{edge}"), ty, &literal(0, value));
                }
                if u64::try_from(value).is_ok() {
                    self.value(format!("uint-{label}-{edge}"), ty, &literal(1, value));
                }
            }
        }
        for (label, ty) in [("f32", 9), ("f64", 10), ("fixed32", 11), ("bool", 0), ("void", 13), ("string", 32)] {
            self.value(format!("int-{label}"), &[ty], &literal(0, -1));
            self.value(format!("uint-{label}"), &[ty], &literal(1, u64::MAX.into()));
            self.value(format!("float-{label}"), &[ty], &[2, 1, 0x7ff8_0000]);
        }
        self.value("int-none", &[], &literal(0, -1));
        self.value("uint-none", &[], &literal(1, 1));
        self.value("float-none", &[], &[2, 0, 0]);
        self.value("string-empty", &[STRING], &[4, 0]);
        self.value("string-u8", &[U8], &[4, 1]);
        self.value("self", &[48, MESSAGE], &[6]);
        self.value("self-other", &[48, TRAIT], &[6]);
    }

    pub(super) fn operators(&mut self) {
        let (one, two) = (literal(0, 1), literal(0, 2));
        let binary = |operator: u32, left: &[u32], right: &[u32]| [&[10, operator], left, right].concat();
        let neg = |value: &[u32]| [&[11, 0], value].concat();
        self.value("neg-128-i8", &[I8], &neg(&literal(0, 128)));
        self.value("neg-minus-128-i8", &[I8], &neg(&literal(0, -128)));
        self.value("less-bool", &[BOOL], &binary(6, &one, &two));
        self.value("int-plus-uint", &[], &binary(0, &one, &literal(1, 2)));
        self.value("uint-plus-int", &[], &binary(0, &literal(1, 2), &literal(0, -1)));
        self.value("neg-uint-none", &[], &neg(&literal(1, 1)));
        self.value("true-equals-p", &[], &binary(4, &[3, 1], &[5, P]));
        self.value("p-equals-true", &[], &binary(4, &[5, P], &[3, 1]));
        self.value("one-plus-p", &[], &binary(0, &one, &[5, P]));
        self.value("p-plus-256", &[], &binary(0, &[5, P], &literal(0, 256)));
        self.value("sum-under-u64", &[U64], &binary(0, &one, &two));
        self.value("sum-under-string", &[STRING], &binary(0, &[4, 0], &[4, 1]));
        self.value("nested-hint", &[], &binary(6, &binary(0, &[5, P], &one), &two));
        self.value("field-hint", &[], &binary(2, &two, &[7, X, 6]));
        self.value("unknown-field-hint", &[], &binary(2, &two, &[7, M, 6]));
        self.value("not-p", &[], &[11, 1, 5, P]);
        self.value("not-true-u8", &[U8], &[11, 1, 3, 1]);
        for operator in 0..10 {
            for (label, value) in [("bool", [3, 1]), ("string", [4, 1]), ("u8", [5, P])] {
                self.value(format!("operator-{operator}-{label}"), &[], &binary(operator, &value, &value));
            }
            self.value(format!("operator-{operator}-self"), &[], &binary(operator, &[6], &[6]));
        }
    }

    pub(super) fn statements(&mut self) {
        self.body("empty", &[]);
        self.body("expression", &[&[0, 6]]);
        self.body("let-parameter", &[&[1, P, 0, 5, P]]);
        self.body("let-own-name", &[&[1, X, 0, 5, X]]);
        self.body("let-twice", &[&[1, X, 0, 3, 1], &[1, X, 0, 3, 1]]);
        self.body("let-then-use", &[&[1, X, 0, 3, 1], &[1, T, 1, BOOL, 5, X]]);
        self.body("assign-local", &[&[3, 5, P, 5, P]]);
        self.body("assign-self", &[&[3, 6, 6]]);
        self.body("assign-field-of-field", &[&[3, 7, X, 7, X, 6, 5, P]]);
        self.body("assign-unknown-field", &[&[3, 7, P, 6, 5, P]]);
        self.body("assign-mismatch", &[&[3, 7, X, 6, 3, 1]]);
        self.body("field-of-local", &[&[1, X, 0, 7, X, 5, P]]);
        self.body("call", &[&[1, X, 0, 8, T, 1, 5, X]]);
        self.body("method", &[&[1, X, 0, 9, T, M, 0, 5, X]]);
        self.body("void-return", &[&[2, 0]]);
        self.body("void-gives-value", &[&[2, 1, 5, X]]);
        self.body("after-return", &[&[2, 0], &[0, 5, X]]);
        let returns =
            |body: &[&[u32]]| with_body(&[], Some(vec![U8]), body.iter().map(|words| words.to_vec()).collect());
        self.rich("value-missing", &returns(&[&[2, 0]]));
        self.rich("no-return", &returns(&[&[3, 7, X, 6, 0, 1, 0]]));
        self.rich("return-field", &returns(&[&[2, 1, 7, X, 6]]));
        self.rich("return-mismatch", &returns(&[&[2, 1, 6]]));
        self.rich("return-256", &returns(&[&[2, 1, 0, 256, 0]]));
        let twice = [(P, vec![U8]), (P, vec![BOOL])];
        self.rich("parameters-last-wins", &with_body(&twice, None, vec![vec![1, X, 1, BOOL, 5, P]]));
        let mut fields = with_body(&[], None, vec![vec![3, 7, X, 6, 3, 1]]);
        fields.model.defs[MESSAGE as usize] = Def::Message(vec![(X, vec![U8]), (X, vec![BOOL])]);
        self.rich("fields-last-wins", &fields);
        self.rich("parameter-void", &with_body(&[(P, vec![13])], None, vec![vec![1, X, 1, 13, 5, P]]));
        // More output than 65,536 bytes: values carry their types.
        let long = vec![vec![3, 7, X, 6, 7, X, 6]; 256];
        let mut huge = with_body(&[], None, long);
        huge.model.defs[MESSAGE as usize] = Def::Message(vec![(X, [vec![64; 63], vec![U8]].concat())]);
        self.rich("huge-output", &huge);
    }
}
