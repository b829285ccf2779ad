"""The classes of messages, each with what it is reported for. docs/SEMVER.md says more of those of a release."""
from __future__ import annotations

# Of a release, in the order of docs/SEMVER.md.
CHANGES = {
    "item-removed": "a public path names nothing any more", "alias-removed": "a public alias is gone", "crate-removed": "a library is gone",
    "alias-retargeted": "an alias is another type", "kind-changed": "an item is of another kind", "parameter-added": "a parameter is new",
    "parameter-removed": "a parameter is gone", "parameter-kind-changed": "a parameter is of another kind",
    "default-removed": "a parameter has no default any more", "default-changed": "an omitted argument means something else",
    "lifetime-added": "a lifetime parameter is new", "lifetime-removed": "a lifetime parameter is gone",
    "bound-added": "a bound is new, and the old ones do not prove it", "lifetime-bound-added": "a bound by a lifetime is new",
    "supertrait-added": "a supertrait is new", "supertrait-removed": "a supertrait is gone",
    "associated-type-added": "an associated type is new", "associated-type-removed": "an associated type is gone",
    "associated-type-changed": "an associated type has other parameters", "associated-type-bound-added": "an associated type has a new bound",
    "associated-type-bound-removed": "an associated type has lost a bound", "required-item-added": "implementors have to write an item more",
    "trait-item-removed": "an item of a trait is gone", "trait-made-unsafe": "a trait is unsafe now", "trait-made-safe": "a trait is not unsafe any more",
    "trait-made-auto": "a trait is an auto trait now", "dyn-lost": "a trait can no longer be a `dyn`", "impl-removed": "an old impl has no proof any more",
    "impl-bounds-changed": "an impl asks for more", "associated-value-changed": "an impl's associated type is another type",
    "auto-trait-lost": "a type has lost an auto trait", "sized-lost": "a type may be unsized now", "unsizing-lost": "a type cannot be unsized any more",
    "constant-pattern-lost": "a constant of a type is no pattern any more", "constant-borrow-lost": "a constant of a type cannot be borrowed for good any more",
    "annotations-needed": "types that were inferred may have to be written", "impl-added": "another crate may have an impl that overlaps a new one",
    "function-removed": "a function is gone", "constant-removed": "a constant is gone", "static-removed": "a static is gone", "macro-removed": "a macro is gone",
    "module-removed": "a module is gone", "glob-re-export-removed": "a glob re-export is gone", "extern-type-removed": "an extern type is gone",
    "method-removed": "a method is gone", "associated-constant-removed": "an associated constant is gone", "field-removed": "a field is gone",
    "field-made-private": "a field is private now", "field-added": "a field is new", "field-type-changed": "a field is of another type",
    "form-changed": "a struct or variant has another form", "non-exhaustive-added": "a type is non-exhaustive now", "variant-removed": "a variant is gone",
    "variant-added": "a variant is new", "discriminant-changed": "a variant is another number", "repr-changed": "a type is packed now",
    "constant-type-changed": "a constant is of another type", "associated-constant-type-changed": "an associated constant is of another type",
    "static-type-changed": "a static is of another type", "static-made-mutable": "a static is mutable now",
    "signature-changed": "a function has another signature", "const-lost": "a function is not const any more",
    "function-made-unsafe": "a function is unsafe now", "result-bound-removed": "an `impl Trait` result has lost a bound",
    "drop-added": "a type has a destructor now", "not-judged": "something public has changed that no class judges",
}
# What else is an error or a warning.
CLASSES = {
    **CHANGES, "overlap": "two impls overlap", "orphan": "an impl breaks the orphan rule", "refused": "a crate is not coherent", "yes": "a bound holds", "no": "a bound does not hold",
    "unproved": "a bound has no proof", "maybe": "a bound depends on its variables", "not-settled": "it is not settled whether a bound holds",
    "not-understood": "a question cannot be asked", "no-answer": "there is no answer", "waiver-unused": "a waiver waives nothing",
}
