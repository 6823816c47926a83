/* What Java's own header jni_md.h says for one platform, for all that the jar has a library for. */
#include <stdint.h>

#ifdef _WIN32
#define JNIEXPORT __declspec(dllexport)
#else
#define JNIEXPORT __attribute__((visibility("default")))
#endif
#define JNIIMPORT
#define JNICALL
typedef int32_t jint;
typedef int64_t jlong;
typedef int8_t jbyte;
