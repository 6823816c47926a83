/* What all files of the package include. */
#if __has_include("../../dist/infer.h")
#include "../../dist/infer.h"
#else
#include "../../c/infer.h"
#endif
#include "../../aliases/infer_aliases.h"
