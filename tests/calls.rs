// Generated from calls.txt by tools/make-calls: do not edit.
/// The calls, as thresholm_NAME exports them.
#[rustfmt::skip]
pub const CALLS: &[&str] = &[
    "version", "metric", "added_dims", "promotion", "try_from_str", "write_to", "blade_count", "grade_size", "order_of", "set_dims",
    "set_flavor", "conform_to", "conform", "get_blade", "set_blade", "grade", "vector", "n_1_blades", "scalar", "pseudoscalar", "blades_left",
    "blades_right", "unpack_all", "unpack_even", "unpack_odd", "unpack_own_even", "unpack_own_odd", "unpack_vector", "general_product",
    "left_contraction", "right_contraction", "inner_product", "outer_product", "mul", "add", "sub", "div", "mul_f64", "div_f64", "neg",
    "reverse", "inv_reverse", "dual", "antidual", "regressive_product", "inverted", "powi", "make_scalar_only", "squared_magnitude",
    "take_scalar", "scalar_test", "eq", "cmp", "read", "write", "value_at", "numbers_of", "patterns_of", "replay",
];
