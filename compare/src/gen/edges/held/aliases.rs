//! Poison and aliases: an argument that is kept or dropped, a target that has poison of its own.

use super::{aliased, around, declared, given, Edges, A, B, NOTHING, POISON, U8};
use crate::gen::model::{Def, NONE};
use crate::gen::tiny::{M, P, T, X};

/// A's argument: the name that stands for nothing, and a good one.
const OF_NOTHING: [u32; 4] = [50, A, 48, X];
const OF_U8: [u32; 3] = [50, A, U8];

impl Edges {
    pub(super) fn poison_by_aliases(&mut self) {
        self.kept();
        self.in_targets();
        self.dropped();
    }

    /// A parameter by these aliases.
    fn by(&mut self, label: &str, expression: &[u32], targets: &[&[u32]]) {
        self.poison(&format!("alias-{label}"), &aliased(declared(&[expression], &[0]), targets));
    }

    fn kept(&mut self) {
        for (label, target) in [
            ("keeps", &[48, P][..]),
            ("keeps-in-optional", &[64, 48, P]),
            ("keeps-in-map-first", &[68, 48, P, U8]),
            ("keeps-in-map-second", &[68, U8, 48, P]),
            ("keeps-behind-length", &[66, 48, NONE, 48, P]),
        ] {
            self.by(label, &OF_NOTHING, &[target]);
        }
        self.by("of-alias-keeps", &OF_NOTHING, &[&[50, B, 48, P], &[48, P]]);
        self.by("of-alias-keeps-in-map", &OF_NOTHING, &[&[68, U8, 50, B, 48, P], &[68, 48, P, U8]]);
        self.by("of-itself-keeps", &[50, A, 50, A, 48, X], &[&[64, 48, P]]);
        self.by("keeps-map-second", &[50, A, 68, U8, 48, X], &[&[48, P]]);
        self.by("keeps-map-first", &[50, A, 68, 48, X, U8], &[&[48, P]]);
        self.by("in-map-first-keeps", &around(&[68], &OF_NOTHING, &[U8]), &[&[48, P]]);
        self.by("in-map-second-keeps", &around(&[68, U8], &OF_NOTHING, &[]), &[&[48, P]]);
        // One is dropped, and the one beside it is not.
        self.by("keeps-first-drops-second", &OF_NOTHING, &[&[68, 48, P, 50, B, 48, P], &[U8]]);
        self.by("drops-first-keeps-second", &OF_NOTHING, &[&[68, 50, B, 48, P, 48, P], &[U8]]);
        self.by("drops-beside-poison", &around(&[68], &OF_NOTHING, &NOTHING), &[&[U8]]);
        self.by("drops-behind-poison", &around(&[68, 48, X], &OF_NOTHING, &[]), &[&[U8]]);
        let of_argument = aliased(declared(&[&[50, A, 48, T]], &[0]), &[&[68, U8, 48, P]]);
        self.poison("alias-keeps-argument", &given(of_argument, &[T], &[&POISON]));
        self.poison("alias-keeps-return", &aliased(declared(&[], &[2, 50, A, 48, X]), &[&[68, U8, 48, P]]));
    }

    /// The argument is good.
    fn in_targets(&mut self) {
        for (label, target) in [
            ("is-poison", &NOTHING[..]),
            ("has-poison-deep", &[68, U8, 64, 48, X]),
            ("has-poison-behind-argument", &[68, 48, P, 48, X]),
            ("has-poison-before-argument", &[68, 48, X, 48, P]),
            ("has-no-qualified", &[68, 48, P, 49, P, X]),
            ("has-no-generic", &[68, 50, M, 48, P, 48, P]),
        ] {
            self.by(&format!("target-{label}"), &OF_U8, &[target]);
        }
        self.by("of-alias-target-has-poison", &OF_U8, &[&[50, B, 48, P], &[68, 48, P, 48, X]]);
        let mut two = aliased(declared(&[&OF_U8], &[0]), &[&[64, 50, B, 48, P], &[U8]]);
        if let Some(Def::Alias(params, _)) = two.model.defs.last_mut() {
            params.push(X);
        }
        self.poison("alias-target-has-two-parameters", &two);
    }

    /// Nothing of it is in the type.
    fn dropped(&mut self) {
        let clean = |edges: &mut Edges, label: &str, params: &[&[u32]], targets: &[&[u32]]| {
            edges.clean(&format!("alias-{label}"), aliased(declared(params, &[0]), targets));
        };
        clean(self, "drops-name", &[&OF_NOTHING, &[U8]], &[&[U8]]);
        clean(self, "drops-generic", &[&[50, A, 50, M, 48, X]], &[&[U8]]);
        clean(self, "drops-qualified", &[&[50, A, 49, P, X]], &[&[U8]]);
        let of_argument = aliased(declared(&[&[50, A, 48, T]], &[0]), &[&[U8]]);
        self.clean("alias-drops-argument", given(of_argument, &[T], &[&POISON]));
        clean(self, "drops-map-of-poison", &[&[50, A, 68, U8, 64, 48, X]], &[&[64, U8]]);
        clean(self, "drops-in-map-first", &[&around(&[68], &OF_NOTHING, &[U8])], &[&[U8]]);
        clean(self, "drops-in-map-second", &[&around(&[68, U8], &OF_NOTHING, &[])], &[&[U8]]);
        clean(self, "of-alias-drops", &[&OF_NOTHING], &[&[64, 50, B, 48, P], &[U8]]);
        clean(self, "target-drops", &[&OF_U8], &[&[68, 50, B, 48, X, 48, P], &[U8]]);
        clean(self, "drops-poisoned-alias", &[&[50, B, 50, A, U8]], &[&NOTHING, &[U8]]);
        self.clean("alias-drops-return", aliased(declared(&[], &[2, 50, A, 48, X]), &[&[U8]]));
        // The parameter hides that its name stands for nothing.
        let mut hidden = aliased(declared(&[&OF_U8], &[0]), &[&[68, 48, X, 48, X]]);
        if let Some(Def::Alias(params, _)) = hidden.model.defs.last_mut() {
            *params = vec![X];
        }
        self.clean("alias-parameter-hides-nothing", hidden);
    }
}
