/* Generated from calls.txt by tools/make-calls: do not edit. */
#ifndef THRESHOLM_NAMES_H
#define THRESHOLM_NAMES_H

/* X(NAME) for each call thresholm_NAME. */
#define THRESHOLM_CALLS(X) \
    X(version) X(metric) X(added_dims) X(promotion) X(try_from_str) X(write_to) X(blade_count) X(grade_size) \
    X(order_of) X(set_dims) X(set_flavor) X(conform_to) X(conform) X(get_blade) X(set_blade) X(grade) X(vector) \
    X(n_1_blades) X(scalar) X(pseudoscalar) X(blades_left) X(blades_right) X(unpack_all) X(unpack_even) \
    X(unpack_odd) X(unpack_own_even) X(unpack_own_odd) X(unpack_vector) X(general_product) X(left_contraction) \
    X(right_contraction) X(inner_product) X(outer_product) X(mul) X(add) X(sub) X(div) X(mul_f64) X(div_f64) \
    X(neg) X(reverse) X(inv_reverse) X(dual) X(antidual) X(regressive_product) X(inverted) X(powi) \
    X(make_scalar_only) X(squared_magnitude) X(take_scalar) X(scalar_test) X(eq) X(cmp) X(read) X(write) \
    X(value_at) X(numbers_of) X(patterns_of) X(replay)

#endif
