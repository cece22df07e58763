//! The given Rust, unchanged: each file is included from the folder $RUST_SRC, as src/NAME.rs.
//! What follows an include! stands in the file's own module, so it reaches the private functions.
#![allow(dead_code, bare_trait_objects, ellipsis_inclusive_range_patterns)]
extern crate bincode;
extern crate fnv;
extern crate zero;
#[macro_use]
extern crate serde_derive;

pub mod utils {
    include!(concat!(env!("RUST_SRC"), "/src/utils.rs"));
}
pub mod instruction_set {
    include!(concat!(env!("RUST_SRC"), "/src/instruction_set.rs"));
}
pub mod machine_state {
    include!(concat!(env!("RUST_SRC"), "/src/machine_state.rs"));
}
pub mod mmu {
    include!(concat!(env!("RUST_SRC"), "/src/mmu.rs"));

    // The pages that a write touches, for the slots of RULES 3.9: the walk is private to this module.
    pub fn translate(m: &mut MachineState, address: u64) -> u64 {
        m.translate_virtual_to_physical_address(address)
    }
}
