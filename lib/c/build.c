/* How the library was built, as its Makefile says in KIND. */
#include "topichub.h"

uint32_t topichub_build(void) {
    return KIND;
}
