//! Stands in for the trait that lc3-codec takes from the crate num_traits: with the standard library f32 and f64 have these methods themselves.
pub mod real {
    pub trait Real {}
}
