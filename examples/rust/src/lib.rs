//! Safe wrappers of the library for C: a system that one thread has at a time, and a pool whose loaders are each on a
//! thread of their own.
pub mod metaspace;
pub mod shared;
