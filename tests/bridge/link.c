/* Every call of the header, by its address, so that the archives of `bridge` and `records` must have it. */
#include "bridge.h"
#include "check.h"

#define CALL(name) (void (*)(void)) name

static void (*const calls[])(void) = {
    CALL(pt_degree),
    CALL(pt_exponent),
    CALL(pt_power),
    CALL(pt_product),
    CALL(pt_quotient),
    CALL(pt_lcm),
    CALL(pt_gcd),
    CALL(pt_divides),
    CALL(pt_coprime),
    CALL(pt_lex),
    CALL(pt_degrevlex),
    CALL(pt_mask),
    CALL(pt_numerator),
    CALL(pt_update),
    CALL(pt_hf_at),
    CALL(pt_dimension),
    CALL(pt_is_zero),
    CALL(pt_coeff_degree),
    CALL(pt_coeff),
    CALL(pt_write_record),
    CALL(pt_check_place),
    CALL(pt_place),
    CALL(pt_copy_record),
    CALL(purlthicket_dim),
};

int main(void) {
    for (size_t i = 0; i < sizeof calls / sizeof calls[0]; i++) expect(calls[i] != 0, "a call of the header");
    return counted("bridge, link");
}
