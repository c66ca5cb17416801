# What is changed in a copy of the crate's lib.rs, so that a rustc of today takes it; README.md gives the reasons.
s/^#!\[feature(const_generics)\]$//
s/^#!\[feature(const_evaluatable_checked)\]$/#![feature(generic_const_exprs)]/
s/^#!\[feature(const_panic)\]$//
