//! optd reads Substrait here. The oracle does not.
