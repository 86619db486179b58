//! The compiler's parts that resolving has and names.

pub(crate) mod compiler {
    #[allow(dead_code, unused_imports, clippy::all)] // the text has more than resolving uses
    pub(crate) mod scope;

    /// Of the original's `def.rs`, what a scope holds.
    pub(crate) mod def {
        use crate::eval::runtime::slots::LocalSlotIdCapturedOrNot;

        /// Copy local variable slot to nested function.
        #[derive(Debug)]
        pub(crate) struct CopySlotFromParent {
            /// Slot in the outer function.
            pub(crate) parent: LocalSlotIdCapturedOrNot,
            /// Slot in the nested function.
            pub(crate) child: LocalSlotIdCapturedOrNot,
        }
    }
}

pub(crate) mod runtime {
    pub(crate) mod slots {
        /// The number of a local slot.
        #[derive(Clone, Copy, Debug, PartialEq, Eq)]
        pub(crate) struct LocalSlotIdCapturedOrNot(pub(crate) u32);
    }
}
