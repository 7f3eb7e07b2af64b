//! The library, as the assembly that was generated from its proved code, and the functions that it calls for memory, as
//! assembly that was generated from C. The files are those of the repository's folder `dist`: its README says how they
//! are made, and how they are checked against the proof. build.rs chooses those of the target, and puts a prefix before
//! their names.

#[cfg(all(h3_qpack_assembly, target_arch = "x86_64"))]
core::arch::global_asm!(
    include_str!(concat!(env!("OUT_DIR"), "/library.s")),
    include_str!(concat!(env!("OUT_DIR"), "/heap.s")),
    options(att_syntax, raw)
);

#[cfg(all(h3_qpack_assembly, not(target_arch = "x86_64")))]
core::arch::global_asm!(
    include_str!(concat!(env!("OUT_DIR"), "/library.s")),
    include_str!(concat!(env!("OUT_DIR"), "/heap.s")),
    options(raw)
);

#[cfg(not(h3_qpack_assembly))]
compile_error!(
    "h3_qpack has no assembly for this target. Depend on it by [target.'cfg(..)'.dependencies] for the targets of its \
     README alone, or set H3_QPACK_LIB to a libh3_qpack.a of this one"
);
