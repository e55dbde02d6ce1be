//! The exports that include/logic_core.rs declares.

/// Links them, or without the library gives bodies that nobody may reach.
macro_rules! exports {
    ($(fn $name:ident($($parameter:ident: $type:ty),*) -> $result:ty;)*) => {
        #[cfg(linked)]
        extern "C" {
            $(pub fn $name($($parameter: $type),*) -> $result;)*
        }
        #[cfg(not(linked))]
        mod missing {
            $(pub unsafe fn $name($(_: $type),*) -> $result {
                unreachable!("the port isn't linked")
            })*
        }
    };
}

#[cfg(not(linked))]
pub use missing::*;

include!("../../../include/logic_core.rs");
