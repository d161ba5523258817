/* Calls everything in include/thresholm.h. The answers that are expected are worked out from document 01, and its worked
 * table is among them. With the argument 'wrong' every answer is expected wrong, and each must be told apart; with
 * 'numbers' it says at the end which numbers each call was refused with, and with 'stack' how many bytes of the stack each
 * call took at most. */
#include "check.h"

#include <string.h>

static void all(void) {
    group("the header's own", header);
    group("flavors", flavors);
    group("order", order);
    group("shapes", shapes);
    group("blades", blades);
    group("build", build);
    group("unpack", unpack);
    group("products", products);
    group("operators", operators);
    group("values", values);
    group("compare", compare);
    group("sheet", sheet);
    group("replay", replay);
    group("each kind of flavor", kinds);
    group("nine dimensions", nine);
    group("the bits of NaNs", nan_bits);
    group("null pointers of length 0", nulls);
}

int main(int argc, char **argv) {
    const char *how = argc > 1 ? argv[1] : "";
    if (strcmp(how, "wrong") == 0) expect_wrong();
    if (strcmp(how, "stack") == 0) on_painted_stack(all);
    else all();
    if (strcmp(how, "numbers") == 0) say_numbers();
    if (strcmp(how, "stack") == 0) say_stack();
    return every_call();
}
