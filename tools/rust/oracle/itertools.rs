//! Stands in for the one macro that lc3-codec takes from the crate itertools.
#[macro_export]
macro_rules! izip {
    ($a:expr, $b:expr, $c:expr, $d:expr, $e:expr) => {
        $a.zip($b)
            .zip($c)
            .zip($d)
            .zip($e)
            .map(|((((a, b), c), d), e)| (a, b, c, d, e))
    };
}
