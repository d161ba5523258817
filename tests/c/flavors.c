/* Flavors, and their text. */
#include "check.h"

static void metrics(void) {
    GIVES(1, metric, vga(ANY), 0);
    GIVES(0, metric, pga(ANY), 0);
    GIVES(1, metric, pga(ANY), 1);
    GIVES(0, metric, cl(ANY, 0, 1, 1), 0);
    GIVES(-1, metric, cl(ANY, 0, 1, 1), 1);
    GIVES(1, metric, cl(ANY, 0, 1, 1), 2);
    GIVES(-1, metric, cl(ANY, 0, 255, 255), 255); /* z + n is above 255 */

    GIVES(0, added_dims, vga(ANY));
    GIVES(1, added_dims, pga(ANY));
    GIVES(0, added_dims, cl(ANY, 2, 0, 1));

    GIVES(1, promotion, vga(ANY), pga(ANY));
    GIVES(0, promotion, pga(ANY), vga(ANY));
    GIVES(0, promotion, vga(ANY), cl(ANY, 2, 0, 1));
    GIVES(0, promotion, cl(ANY, 3, 0, 0), pga(ANY));
}

/* A flavor is reported as the shape of no dimensions. */
static void texts_read(void) {
    want_shape(VGA(0));
    CALL(0, try_from_str, TEXT("VGA"), TO_SHAPE);
    want_shape(PGA(0));
    CALL(0, try_from_str, TEXT("PGA"), TO_SHAPE);
    want_shape(CL(0, 3, 0, 0));
    CALL(0, try_from_str, TEXT("Cl 3 x"), TO_SHAPE);
    want_shape(CL(0, 3, 0, 1));
    CALL(0, try_from_str, TEXT("Cl 3 256 1"), TO_SHAPE);
    want_shape(CL(0, 4, 1, 0));
    CALL(0, try_from_str, TEXT("Cl+004,1\n"), TO_SHAPE);
}

static void texts_refused(void) {
    CALL(7, try_from_str, TEXT(""), TO_SHAPE);
    CALL(7, try_from_str, TEXT("vga"), TO_SHAPE);
    CALL(7, try_from_str, TEXT("VGA "), TO_SHAPE);
    CALL(7, try_from_str, TEXT("Cl 3\xC2\xA0"), TO_SHAPE);
    CALL(7, try_from_str, TEXT("Cl\xFF"), TO_SHAPE);
    CALL(8, try_from_str, TEXT("Cl"), TO_SHAPE);
    CALL(8, try_from_str, TEXT("Cl x"), TO_SHAPE);
    CALL(8, try_from_str, TEXT("Cl 256"), TO_SHAPE);
    CALL(8, try_from_str, TEXT("Cl 1 2 3 4"), TO_SHAPE);
}

static void texts_written(void) {
    want_bytes(TEXT("VGA"));
    CALL(0, write_to, vga(ANY), got.bytes, 3, &got.count);
    want_bytes(TEXT("PGA"));
    CALL(0, write_to, pga(ANY), got.bytes, 14, &got.count);
    want_bytes(TEXT("Cl3"));
    CALL(0, write_to, cl(ANY, 3, 0, 0), got.bytes, 14, &got.count);
    want_bytes(TEXT("Cl 3 1"));
    CALL(0, write_to, cl(ANY, 3, 1, 0), got.bytes, 14, &got.count);
    want_bytes(TEXT("Cl 3 1 1"));
    CALL(0, write_to, cl(ANY, 3, 1, 1), got.bytes, 14, &got.count);
    want_bytes(TEXT("Cl 255 255 255"));
    CALL(0, write_to, cl(ANY, 255, 255, 255), got.bytes, 14, &got.count);
    CALL(3, write_to, cl(ANY, 255, 255, 255), got.bytes, 13, &got.count);
    CALL(3, write_to, vga(ANY), got.bytes, 2, &got.count);
    CALL(3, write_to, vga(ANY), got.bytes, 0, &got.count);
}

void flavors(void) {
    metrics();
    texts_read();
    texts_refused();
    texts_written();
}
