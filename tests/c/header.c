/* What the header defines itself: the version, the makers of shapes, the texts of refusals. */
#include "check.h"

#include <string.h>

/* The macro's argument after the name is that the call has none. */
static void version(void) {
    GIVES(THRESHOLM_VERSION, version, );
    HOLDS(version, THRESHOLM_VERSION ==
        THRESHOLM_VERSION_MAJOR * 10000 + THRESHOLM_VERSION_MINOR * 100 + THRESHOLM_VERSION_PATCH);
}

static int has_bytes(thresholm_shape shape, const uint8_t *bytes, size_t count) {
    return sizeof shape == count && memcmp(&shape, bytes, count) == 0;
}

static void makers(void) {
    static const uint8_t vanilla[] = {7, 0, 0, 0, 0, 0}, projective[] = {255, 1, 0, 0, 0, 0}, cl[] = {0, 2, 1, 2, 255, 0};
    HOLDS(vanilla, has_bytes(thresholm_vanilla(7), LENT(vanilla)));
    HOLDS(projective, has_bytes(thresholm_projective(255), LENT(projective)));
    HOLDS(cl, has_bytes(thresholm_cl(0, 1, 2, 255), LENT(cl)));
}

static int same_text(unsigned number, unsigned other) {
    return strcmp(thresholm_refusal_text((uint8_t)number), thresholm_refusal_text((uint8_t)other)) == 0;
}

/* How many numbers have the text of this one. */
static int as_many(unsigned number) {
    int count = 0;
    for (unsigned other = 0; other < 256; other++) count += same_text(number, other);
    return count;
}

/* Each number has a text of its own, and those that no call returns have one together. */
static void texts(void) {
    for (unsigned number = 0; number <= THRESHOLM_BAD_LOG; number++)
        HOLDS(refusal_text, thresholm_refusal_text((uint8_t)number)[0] != 0 && as_many(number) == 1);
    HOLDS(refusal_text, thresholm_refusal_text(255)[0] != 0 && as_many(255) == 255 - THRESHOLM_BAD_LOG);
}

void header(void) {
    version();
    makers();
    texts();
}
