/* The version of the library, where it is not built by Cargo, whose package tells it by itself. */
#include "intervallum.h"

int64_t ivl_version(void) {
    return IVL_VERSION_NUMBER;
}
