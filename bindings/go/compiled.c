/* The library, where fill put none here that is built. */
#ifndef INFER_IS_BUILT
#include "../../dist/infer.c"
#endif
