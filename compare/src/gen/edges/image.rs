//! Edges of the image itself: every code and flag, texts, the trailer.

use super::{literal, Edges, BOOL, U8};
use crate::gen::model::{assemble, Def, NONE};
use crate::gen::tiny::{tiny, with_body, IMPL, M, P, T, X};

impl Edges {
    /// Every code and flag, and its neighbours.
    pub(super) fn codes(&mut self) {
        let codes = (0..=14)
            .chain([15, 16, 17, 31, 32, 37, 38, 47, 48, 49, 50, 51, 63])
            .chain(64..=76)
            .chain([79, 80, 81, NONE]);
        for code in codes {
            let rest: &[u32] = match code {
                16 => &[1, 5],
                48 => &[1],
                49 => &[P, X],
                50 => &[M, U8],
                66 => &[3, 0, U8],
                68 | 69 => &[U8, BOOL],
                64..=75 => &[U8],
                80 => &[2, P, X],
                _ => &[],
            };
            let run = [&[code], rest].concat();
            self.value(format!("type-{code}"), &run, &literal(0, 1));
            self.expression(&format!("type-expression-{code}"), &run, |_| {});
            // A code that is none must not pass for a container either.
            if rest.is_empty() {
                self.value(format!("type-{code}-with-part"), &[code, U8], &literal(0, 1));
            }
        }
        for (label, run) in [
            ("bits-0", [16, 0, 0]),
            ("bits-1", [16, 0, 1]),
            ("bits-64", [16, 1, 64]),
            ("bits-65", [16, 0, 65]),
            ("sign-2", [16, 2, 8]),
        ] {
            self.value(format!("sub-byte-{label}"), &run, &literal(0, 0));
        }
        for (label, value) in [
            ("bool-2", &[3, 2][..]),
            ("string-past", &[4, 2]),
            ("local-past", &[5, 5]),
            ("field-past", &[7, 5, 6]),
            ("call-past", &[8, 5, 0]),
            ("method-past", &[9, T, 5, 0, 6]),
            ("method-trait-past", &[9, 5, T, 0, 6]),
            ("operator-10", &[10, 10, 6, 6]),
            ("unary-2", &[11, 2, 6]),
            ("code-12", &[12, 0, 0]),
        ] {
            self.value(format!("expression-{label}"), &[], value);
        }
        self.body("statement-4", &[&[4, 0, 0]]);
        self.body("let-flag-2", &[&[1, X, 2, U8, 3, 1]]);
        self.body("return-flag-2", &[&[2, 2, 3, 1]]);
        self.body("let-name-past", &[&[1, 5, 0, 3, 1]]);
        for (label, returns) in
            [("3", &[3][..]), ("resolved-qualified", &[1, 49, P, X]), ("expression-name-past", &[2, 48, 5])]
        {
            let mut rich = tiny();
            rich.model.trait_of(IMPL).functions[0].returns = returns.to_vec();
            self.rich(format!("trait-return-{label}"), &rich);
        }
    }

    pub(super) fn texts(&mut self) {
        let rows = |names: &[[u32; 4]], strings: &[[u32; 2]]| {
            assemble(b"abc".to_vec(), &names.concat(), &strings.concat(), &[0, 13], &[0, 7, 1, 0])
        };
        for (label, names, strings) in [
            ("overlap", vec![[0, 2, NONE, NONE], [1, 2, NONE, NONE]], vec![[0, 3], [0, 3]]),
            ("equal", vec![[0, 1, NONE, NONE], [0, 1, NONE, NONE]], vec![]),
            ("name-empty", vec![[1, 0, NONE, NONE]], vec![]),
            ("name-whole", vec![[0, 3, NONE, NONE]], vec![]),
            ("name-past", vec![[1, 3, NONE, NONE]], vec![]),
            ("name-wraps", vec![[NONE, 2, NONE, NONE]], vec![]),
            ("string-empty-at-end", vec![], vec![[3, 0]]),
            ("string-empty-past-end", vec![], vec![[4, 0]]),
            ("string-past", vec![], vec![[0, 4]]),
            ("string-wraps", vec![], vec![[1, NONE]]),
            ("definition-last", vec![[0, 1, 1, NONE]], vec![]),
            ("definition-past", vec![[0, 1, 2, NONE]], vec![]),
            ("alias-last-word", vec![[0, 1, NONE, 1]], vec![]),
            ("alias-past", vec![[0, 1, NONE, 2]], vec![]),
            ("no-rows", vec![], vec![]),
        ] {
            self.add(format!("text-{label}"), rows(&names, &strings), 0);
        }
        // Neither of these texts is UTF-8.
        let mut other = tiny();
        other.model.names[X as usize].text = vec![0, 255, 128, 46];
        other.model.strings[1] = vec![0xc3, 0x28];
        self.rich("text-any-bytes", &other);
    }

    pub(super) fn trailers(&mut self) {
        let good = tiny().model.plain_image();
        let trailer = good.len() - 24;
        for (label, index, step) in [
            ("names-odd", 0, 1),
            ("strings-odd", 1, 8),
            ("pool-odd", 2, 4),
            ("definitions-odd", 3, 4),
            ("pool-early", 2, -8),
            ("definitions-early", 3, -8),
            ("definitions-late", 3, 1 << 20),
            ("format-0", 4, -1),
            ("format-2", 4, 1),
            ("length-short", 5, -1),
            ("length-long", 5, 1),
        ] {
            let mut image = good.clone();
            shift(&mut image, index, step);
            self.add(format!("trailer-{label}"), image, IMPL);
        }
        // Sections that are not whole rows, where a reader that does not care would find nothing wrong.
        self.add("part-of-name-row", assemble(b"ab".to_vec(), &[0, 1, NONE, NONE, 1, 1], &[], &[NONE, NONE], &[]), 0);
        self.add("part-of-string-row", assemble(b"ab".to_vec(), &[], &[0, 1, 0], &[1], &[]), 0);
        self.add("part-of-definition-row", assemble(vec![], &[], &[], &[0], &[0, 0, 0]), 0);
        let mut image = good.clone();
        image.splice(trailer - 24..trailer - 24, [0, 0]);
        shift(&mut image, 3, 2);
        shift(&mut image, 5, 2);
        self.add("part-of-pool-word", image, IMPL);
        for length in [0, 4, 23, good.len() - 1] {
            self.add(format!("cut-to-{length}"), good[..length].to_vec(), IMPL);
        }
        self.add("empty-image", assemble(vec![], &[], &[], &[], &[]), 0);
        self.add("texts-only", assemble(b"abc".to_vec(), &[], &[], &[], &[]), 0);
        let mut kind = tiny();
        kind.model.defs.push(Def::Other);
        let mut image = kind.model.plain_image();
        let at = image.len() - 24 - 8;
        image[at + 4] = 255;
        self.add("kind-0-start-unread", image.clone(), IMPL);
        image[at] = 5;
        self.add("kind-5", image, IMPL);
        // A body whose last word is the pool's last, and one whose last word is missing.
        let short = with_body(&[], None, vec![vec![2, 0]]);
        let pool_end = short.model.plain_image().len() - 24 - 24;
        let mut image = short.model.plain_image();
        self.add("pool-ends-with-body", image.clone(), IMPL);
        image.drain(pool_end - 4..pool_end);
        shift(&mut image, 3, -4);
        shift(&mut image, 5, -4);
        self.add("pool-ends-before-body", image, IMPL);
    }
}

/// Changes a word of the trailer.
fn shift(image: &mut [u8], index: usize, step: i64) {
    let at = image.len() - 24 + 4 * index;
    let old = u32::from_le_bytes(image[at..at + 4].try_into().unwrap());
    image[at..at + 4].copy_from_slice(&((i64::from(old) + step) as u32).to_le_bytes());
}
