// Generated from calls.txt by tools/make-calls: do not edit.
//! The declarations of the exported calls, as the C face has them. A slice is a pointer and the count of its elements, a shape or a flavor a
//! pointer to its six bytes, a reference to a number a pointer to one. In this crate only `lent` calls them.

#[rustfmt::skip]
unsafe extern "C" {
    // The library.
    pub fn thresholm_version() -> u32;

    // Flavors.
    pub fn thresholm_metric(flavor: *const u8, index: u8) -> i8;
    pub fn thresholm_added_dims(flavor: *const u8) -> u8;
    pub fn thresholm_promotion(flavor: *const u8, new_flavor: *const u8) -> u8;
    pub fn thresholm_try_from_str(t: *const u8, t_len: usize, to_flavor: *mut u8) -> u8;
    pub fn thresholm_write_to(flavor: *const u8, out: *mut u8, out_len: usize, to_count: *mut usize) -> u8;

    // The order of masks.
    pub fn thresholm_blade_count(dims: u8, to_count: *mut usize) -> u8;
    pub fn thresholm_grade_size(dims: u8, grade: u8, to_count: *mut usize) -> u8;
    pub fn thresholm_order_of(dims: u8, masks: *mut u16, masks_len: usize, places: *mut u16, places_len: usize, to_count: *mut usize) -> u8;

    // Shapes and their changes.
    pub fn thresholm_set_dims(shape: *const u8, new_dims: u8, a: *const f64, a_len: usize, out: *mut f64, out_len: usize, to_shape: *mut u8) -> u8;
    pub fn thresholm_set_flavor(
        shape: *const u8, new_flavor: *const u8, a: *const f64, a_len: usize, out: *mut f64, out_len: usize, to_shape: *mut u8,
    ) -> u8;
    pub fn thresholm_conform_to(
        left: *const u8, right: *const u8, a: *const f64, a_len: usize, out: *mut f64, out_len: usize, to_shape: *mut u8,
    ) -> u8;
    pub fn thresholm_conform(
        left: *const u8, right: *const u8, a: *const f64, a_len: usize, b: *const f64, b_len: usize, out: *mut f64, out_len: usize,
        out_right: *mut f64, out_right_len: usize, to_shape: *mut u8, to_shape_right: *mut u8,
    ) -> u8;

    // Single blades and single grades.
    pub fn thresholm_get_blade(shape: *const u8, mask: usize, a: *const f64, a_len: usize, to_value: *mut f64) -> u8;
    pub fn thresholm_set_blade(
        shape: *const u8, mask: usize, x: f64, a: *const f64, a_len: usize, out: *mut f64, out_len: usize, to_shape: *mut u8,
    ) -> u8;
    pub fn thresholm_grade(shape: *const u8, grade: u8, a: *const f64, a_len: usize, to_start: *mut usize, to_count: *mut usize) -> u8;

    // Values from few numbers.
    pub fn thresholm_vector(v: *const f64, v_len: usize, flavor: *const u8, out: *mut f64, out_len: usize, to_shape: *mut u8) -> u8;
    pub fn thresholm_n_1_blades(v: *const f64, v_len: usize, flavor: *const u8, out: *mut f64, out_len: usize, to_shape: *mut u8) -> u8;
    pub fn thresholm_scalar(shape: *const u8, x: f64, out: *mut f64, out_len: usize, to_shape: *mut u8) -> u8;
    pub fn thresholm_pseudoscalar(shape: *const u8, x: f64, out: *mut f64, out_len: usize, to_shape: *mut u8) -> u8;
    pub fn thresholm_blades_left(shape: *const u8, v: *const f64, v_len: usize, out: *mut f64, out_len: usize, to_shape: *mut u8) -> u8;
    pub fn thresholm_blades_right(shape: *const u8, v: *const f64, v_len: usize, out: *mut f64, out_len: usize, to_shape: *mut u8) -> u8;

    // Some numbers of a value.
    pub fn thresholm_unpack_all(shape: *const u8, d: u8, a: *const f64, a_len: usize, out: *mut f64, out_len: usize, to_count: *mut usize) -> u8;
    pub fn thresholm_unpack_even(shape: *const u8, d: u8, a: *const f64, a_len: usize, out: *mut f64, out_len: usize, to_count: *mut usize) -> u8;
    pub fn thresholm_unpack_odd(shape: *const u8, d: u8, a: *const f64, a_len: usize, out: *mut f64, out_len: usize, to_count: *mut usize) -> u8;
    pub fn thresholm_unpack_own_even(shape: *const u8, a: *const f64, a_len: usize, out: *mut f64, out_len: usize, to_count: *mut usize) -> u8;
    pub fn thresholm_unpack_own_odd(shape: *const u8, a: *const f64, a_len: usize, out: *mut f64, out_len: usize, to_count: *mut usize) -> u8;
    pub fn thresholm_unpack_vector(shape: *const u8, a: *const f64, a_len: usize, out: *mut f64, out_len: usize, to_count: *mut usize) -> u8;

    // The five products.
    pub fn thresholm_general_product(
        left: *const u8, right: *const u8, a: *const f64, a_len: usize, b: *const f64, b_len: usize, out: *mut f64, out_len: usize, to_shape: *mut u8,
        to_pairs: *mut u32,
    ) -> u8;
    pub fn thresholm_left_contraction(
        left: *const u8, right: *const u8, a: *const f64, a_len: usize, b: *const f64, b_len: usize, out: *mut f64, out_len: usize, to_shape: *mut u8,
        to_pairs: *mut u32,
    ) -> u8;
    pub fn thresholm_right_contraction(
        left: *const u8, right: *const u8, a: *const f64, a_len: usize, b: *const f64, b_len: usize, out: *mut f64, out_len: usize, to_shape: *mut u8,
        to_pairs: *mut u32,
    ) -> u8;
    pub fn thresholm_inner_product(
        left: *const u8, right: *const u8, a: *const f64, a_len: usize, b: *const f64, b_len: usize, out: *mut f64, out_len: usize, to_shape: *mut u8,
        to_pairs: *mut u32,
    ) -> u8;
    pub fn thresholm_outer_product(
        left: *const u8, right: *const u8, a: *const f64, a_len: usize, b: *const f64, b_len: usize, out: *mut f64, out_len: usize, to_shape: *mut u8,
        to_pairs: *mut u32,
    ) -> u8;

    // Operators.
    pub fn thresholm_mul(
        left: *const u8, right: *const u8, a: *const f64, a_len: usize, b: *const f64, b_len: usize, out: *mut f64, out_len: usize, to_shape: *mut u8,
    ) -> u8;
    pub fn thresholm_add(
        left: *const u8, right: *const u8, a: *const f64, a_len: usize, b: *const f64, b_len: usize, out: *mut f64, out_len: usize, to_shape: *mut u8,
    ) -> u8;
    pub fn thresholm_sub(
        left: *const u8, right: *const u8, a: *const f64, a_len: usize, b: *const f64, b_len: usize, out: *mut f64, out_len: usize, to_shape: *mut u8,
    ) -> u8;
    pub fn thresholm_div(
        left: *const u8, right: *const u8, a: *const f64, a_len: usize, b: *const f64, b_len: usize, out: *mut f64, out_len: usize, to_shape: *mut u8,
    ) -> u8;
    pub fn thresholm_mul_f64(shape: *const u8, f: f64, a: *const f64, a_len: usize, out: *mut f64, out_len: usize, to_shape: *mut u8) -> u8;
    pub fn thresholm_div_f64(shape: *const u8, f: f64, a: *const f64, a_len: usize, out: *mut f64, out_len: usize, to_shape: *mut u8) -> u8;
    pub fn thresholm_neg(shape: *const u8, a: *const f64, a_len: usize, out: *mut f64, out_len: usize, to_shape: *mut u8) -> u8;

    // Calls on one value, and the regressive product.
    pub fn thresholm_reverse(shape: *const u8, a: *const f64, a_len: usize, out: *mut f64, out_len: usize, to_shape: *mut u8) -> u8;
    pub fn thresholm_inv_reverse(shape: *const u8, a: *const f64, a_len: usize, out: *mut f64, out_len: usize, to_shape: *mut u8) -> u8;
    pub fn thresholm_dual(shape: *const u8, a: *const f64, a_len: usize, out: *mut f64, out_len: usize, to_shape: *mut u8) -> u8;
    pub fn thresholm_antidual(shape: *const u8, a: *const f64, a_len: usize, out: *mut f64, out_len: usize, to_shape: *mut u8) -> u8;
    pub fn thresholm_regressive_product(
        left: *const u8, right: *const u8, a: *const f64, a_len: usize, b: *const f64, b_len: usize, out: *mut f64, out_len: usize, to_shape: *mut u8,
    ) -> u8;
    pub fn thresholm_inverted(shape: *const u8, a: *const f64, a_len: usize, out: *mut f64, out_len: usize, to_shape: *mut u8) -> u8;
    pub fn thresholm_powi(shape: *const u8, exponent: i32, a: *const f64, a_len: usize, out: *mut f64, out_len: usize, to_shape: *mut u8) -> u8;
    pub fn thresholm_make_scalar_only(shape: *const u8, a: *const f64, a_len: usize, out: *mut f64, out_len: usize, to_shape: *mut u8) -> u8;
    pub fn thresholm_squared_magnitude(shape: *const u8, a: *const f64, a_len: usize, to_value: *mut f64) -> u8;
    pub fn thresholm_take_scalar(
        shape: *const u8, a: *const f64, a_len: usize, out: *mut f64, out_len: usize, to_shape: *mut u8, to_value: *mut f64,
    ) -> u8;
    pub fn thresholm_scalar_test(shape: *const u8, a: *const f64, a_len: usize, to_test: *mut u8, to_re: *mut f64, to_im: *mut f64) -> u8;

    // Equality and order, as the workstation has them.
    pub fn thresholm_eq(left: *const u8, right: *const u8, a: *const f64, a_len: usize, b: *const f64, b_len: usize, to_yes: *mut u8) -> u8;
    pub fn thresholm_cmp(left: *const u8, right: *const u8, a: *const f64, a_len: usize, b: *const f64, b_len: usize, to_order: *mut i8) -> u8;

    // The rig sheet.
    pub fn thresholm_read(
        bytes: *const u8, bytes_len: usize, shapes: *mut u8, shapes_len: usize, out: *mut u64, out_len: usize, to_shapes: *mut usize,
        to_count: *mut usize,
    ) -> u8;
    pub fn thresholm_write(
        shapes: *const u8, shapes_len: usize, patterns: *const u64, patterns_len: usize, out: *mut u8, out_len: usize, to_count: *mut usize,
    ) -> u8;
    pub fn thresholm_value_at(shapes: *const u8, shapes_len: usize, index: usize, to_shape: *mut u8, to_start: *mut usize) -> u8;
    pub fn thresholm_numbers_of(patterns: *const u64, patterns_len: usize, out: *mut f64, out_len: usize, to_count: *mut usize) -> u8;
    pub fn thresholm_patterns_of(numbers: *const f64, numbers_len: usize, out: *mut u64, out_len: usize, to_count: *mut usize) -> u8;

    // Replay.
    pub fn thresholm_replay(
        form: u8, sheet: *const u8, sheet_len: usize, log: *const u8, log_len: usize, out: *mut f64, out_len: usize, to_shape: *mut u8,
        to_steps: *mut usize, to_stopped: *mut u8,
    ) -> u8;
}
