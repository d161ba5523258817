//! The declarations of the exported calls, as the C face has them. A slice is a pointer and the count of its elements, a shape or a flavor a
//! pointer to its six bytes, a reference to a number a pointer to one. In this crate only `lent` calls them.

#[rustfmt::skip]
unsafe extern "C" {
@@calls@@
}
