//! Stands for `crate::ast::visit`, the walkers over the source tree. Nothing here walks it.
