/* Asks infer_jni.c in the place of Java, so that it is seen what it does with what it is handed: that no other call is made while
 * an array is held, that each is released once and nothing is written back, and that refused memory is one OutOfMemoryError.
 * It links with infer_jni.c and the library, under sanitizers, or with the library of a jar. */
#include <jni.h>
#include <stdio.h>
#include <stdlib.h>
#include <string.h>

#define ASKED(type, name, ...) extern type JNICALL Java_dev_hoarvelt_infer_Library_##name(JNIEnv *, jclass, __VA_ARGS__)
ASKED(jint, position, jbyteArray, jobject, jint, jint);
ASKED(jint, morePosition, jbyteArray, jobject, jint, jint);
ASKED(jboolean, isDecided, jbyteArray, jobject, jint, jint);
ASKED(jstring, encoding, jbyteArray, jobject, jint, jint);
ASKED(jint, typesGet, jbyteArray, jbyteArray, jobject, jint, jint, jbyteArray, jbyteArray);
ASKED(void, named, jbyteArray, jbyteArray, jobject, jint, jint, jbyteArray);
ASKED(jint, evidence, jbyteArray, jobject, jint, jint, jboolean, jlongArray, jlongArray);
ASKED(jbyteArray, mimeParse, jbyteArray);
ASKED(jbyteArray, mimeCompute, jbyteArray, jint, jint, jbyteArray, jobject, jint, jint);
ASKED(jboolean, mimeIsDecided, jbyteArray, jint, jbyteArray, jobject, jint, jint);
ASKED(jboolean, mimeIsBlocked, jbyteArray, jint);
ASKED(jstring, typesMistake, jbyteArray, jlongArray);
ASKED(jstring, mimeType, jint);
#define ASK(name, ...) Java_dev_hoarvelt_infer_Library_##name(&env, NULL, __VA_ARGS__)

/* An array of Java, which the collector may move: while it is held its bytes stand in a block of just their size. */
struct array { char bytes[2048]; jint size; char *held; };
static int held, refused_from = -1, thrown, wrong;

static void wants(int is_so, const char *what) {
    if (is_so) return;
    printf("%s\n", what);
    wrong++;
}

static void *JNICALL hold(JNIEnv *self, jarray array, jboolean *is_copy) {
    struct array *it = (struct array *)array;
    (void)self, (void)is_copy;
    if (refused_from-- == 0) return NULL;
    it->held = memcpy(malloc((size_t)it->size + !it->size), it->bytes, (size_t)it->size);
    held++;
    return it->held;
}

static void JNICALL release(JNIEnv *self, jarray array, void *at, jint mode) {
    struct array *it = (struct array *)array;
    (void)self;
    wants(at && at == it->held, "what is released was not held");
    wants(mode == JNI_ABORT, "bytes are written back");
    free(it->held);
    it->held = NULL;
    held--;
}

static void alone(void) { wants(held == 0, "a call while an array is held"); }
static jsize JNICALL size_of(JNIEnv *self, jarray array) { return (void)self, alone(), ((struct array *)array)->size; }
static void *JNICALL address(JNIEnv *self, jobject buffer) { return (void)self, alone(), buffer; }
static jclass JNICALL find(JNIEnv *self, const char *name) { return (void)self, alone(), (jclass)name; }
static jint JNICALL throw_new(JNIEnv *self, jclass type, const char *why) {
    (void)self, (void)why, alone();
    wants(strcmp((const char *)type, "java/lang/OutOfMemoryError") == 0, "another exception");
    return thrown++, 0;
}
static void JNICALL set_bytes(JNIEnv *self, jbyteArray array, jsize from, jsize size, const jbyte *bytes) {
    (void)self, alone();
    memcpy(((struct array *)array)->bytes + from, bytes, (size_t)size);
}
static jbyteArray JNICALL new_bytes(JNIEnv *self, jsize size) {
    static struct array made;
    (void)self, alone();
    if (refused_from-- == 0) return thrown++, NULL;
    made = (struct array){"", size, NULL};
    return (jbyteArray)&made;
}
static void JNICALL set_longs(JNIEnv *self, jlongArray array, jsize from, jsize size, const jlong *longs) {
    (void)self, alone();
    memcpy((jlong *)(void *)array + from, longs, (size_t)size * sizeof *longs);
}
static jstring JNICALL text(JNIEnv *self, const char *bytes) {
    static char told[256];
    (void)self, alone();
    return (jstring)(void *)strcpy(told, bytes);
}

static const struct JNINativeInterface_ calls = {
    .GetPrimitiveArrayCritical = hold, .ReleasePrimitiveArrayCritical = release, .GetArrayLength = size_of, .GetDirectBufferAddress = address,
    .FindClass = find, .ThrowNew = throw_new, .SetByteArrayRegion = set_bytes, .SetLongArrayRegion = set_longs, .NewStringUTF = text, .NewByteArray = new_bytes,
};
static JNIEnv env = &calls;

static int says(jstring told, const char *wanted) { return told && strcmp((const char *)told, wanted) == 0; }

static struct array array_of(const char *bytes, size_t size) {
    struct array it = {"", (jint)size, NULL};
    memcpy(it.bytes, bytes, size);
    return it;
}
#define ARRAY(literal) array_of(literal, sizeof literal - 1)

/* What is told of the bytes of an array, and of a buffer without one. */
static void test_answers(struct array *photo, char *direct) {
    jbyteArray bytes = (jbyteArray)photo;
    jint jpeg = ASK(position, bytes, NULL, 2, 3);
    wants(says(ASK(mimeType, jpeg), "image/jpeg"), "a photo in the midst of an array");
    wants(ASK(morePosition, bytes, NULL, 2, 3) == jpeg, "its wider answer");
    wants(ASK(position, bytes, NULL, 2, 2) == -1 && ASK(position, bytes, NULL, 0, 5) == -1 && ASK(position, bytes, NULL, 5, 0) == -1, "no photo");
    wants(ASK(position, NULL, (jobject)(void *)direct, 0, 3) == jpeg && ASK(isDecided, NULL, (jobject)(void *)direct, 0, 3) == ASK(isDecided, bytes, NULL, 2, 3), "a buffer");
    wants(ASK(position, NULL, NULL, 0, 0) == -1 && says(ASK(encoding, NULL, NULL, 0, 0), ""), "a buffer without bytes");
    wants(says(ASK(encoding, bytes, NULL, 0, 2), "us-ascii") && says(ASK(encoding, bytes, NULL, 2, 3), ""), "an encoding");
}

static int is_zero(const char *bytes, size_t size) {
    size_t at = 0;
    while (at < size && bytes[at] == 0)
        at++;
    return at == size;
}

static void test_types(struct array *photo) {
    struct array own = ARRAY("two image/two image - 2: @0 \"go\""), flawed = ARRAY("two image/two image"), mime_type = ARRAY(""), extension = ARRAY("");
    jlong place[2] = {-1, -1};
    wants(ASK(typesGet, (jbyteArray)&own, (jbyteArray)photo, NULL, 0, 5, (jbyteArray)&mime_type, (jbyteArray)&extension) == 6, "the class of a type of one's own");
    wants(strcmp(mime_type.bytes, "image/two") == 0 && strcmp(extension.bytes, "two") == 0, "its texts");
    wants(is_zero(mime_type.bytes + 9, 256 - 9) && is_zero(extension.bytes + 3, 256 - 3), "nothing else of the stack");
    wants(ASK(typesGet, (jbyteArray)&own, NULL, (jobject)(void *)photo->bytes, 0, 5, (jbyteArray)&mime_type, (jbyteArray)&extension) == 6, "the same of a buffer");
    wants(ASK(typesGet, (jbyteArray)&own, (jbyteArray)photo, NULL, 3, 0, (jbyteArray)&mime_type, (jbyteArray)&extension) == -1, "no type");
    wants(says(ASK(typesMistake, (jbyteArray)&own, (jlongArray)(void *)place), "") && place[0] == 0 && place[1] == 0, "a text without a mistake");
    wants(!says(ASK(typesMistake, (jbyteArray)&flawed, (jlongArray)(void *)place), "") && place[0] == 1 && place[1] > 0, "a mistake");
    wants(thrown == 0 && held == 0, "an exception, or an array that is held for good");
    for (int first = 0; first < 2; first++) {
        refused_from = first;
        wants(ASK(typesGet, (jbyteArray)&own, (jbyteArray)photo, NULL, 0, 5, (jbyteArray)&mime_type, (jbyteArray)&extension) == -1, "refused memory of a type");
        wants(thrown == 1 + first && held == 0, "the error of it");
    }
}

/* What is told of a name and bytes begins with the standing, and its MIME type stands behind two numbers. */
static void test_names(struct array *photo) {
    struct array name = ARRAY("a.jpg"), other = ARRAY("a.png"), told = ARRAY("");
    thrown = 0;
    ASK(named, (jbyteArray)&name, (jbyteArray)photo, NULL, 2, 3, (jbyteArray)&told);
    wants(told.bytes[0] == 0 && strcmp(told.bytes + 8, "image/jpeg") == 0, "a name that agrees");
    ASK(named, (jbyteArray)&other, NULL, (jobject)(void *)(photo->bytes + 2), 0, 3, (jbyteArray)&told);
    wants(told.bytes[0] == 5 && strcmp(told.bytes + 8, "image/jpeg") == 0, "a name that a buffer contradicts");
    wants(thrown == 0 && held == 0, "an exception, or a name that is held for good");
    for (int first = 0; first < 2; first++) {
        refused_from = first;
        ASK(named, (jbyteArray)&name, (jbyteArray)photo, NULL, 2, 3, (jbyteArray)&told);
        wants(thrown == 1 + first && held == 0 && told.bytes[0] == 5, "refused memory of a name");
    }
}

/* JPEG's row is before all that begin so, and three bytes are all that it asks. */
static void test_evidence(struct array *photo) {
    jlong ranges[4 * 80] = {-1}, needs[3] = {-1};
    jint jpeg = ASK(position, (jbyteArray)photo, NULL, 2, 3);
    wants(ASK(evidence, (jbyteArray)photo, NULL, 2, 3, 0, (jlongArray)(void *)ranges, (jlongArray)(void *)needs) == jpeg, "the row of an evidence");
    wants(needs[0] >= 1 && needs[1] >= 3 && ranges[0] == 0 && ranges[1] == 3 && ranges[2] == 1 && ranges[3] == jpeg, "the range of it");
    wants(ASK(evidence, NULL, (jobject)(void *)(photo->bytes + 2), 0, 3, 1, (jlongArray)(void *)ranges, (jlongArray)(void *)needs) == jpeg, "the same of a buffer");
    thrown = 0, refused_from = 0;
    wants(ASK(evidence, (jbyteArray)photo, NULL, 0, 5, 0, (jlongArray)(void *)ranges, (jlongArray)(void *)needs) == -1 && thrown == 1 && held == 0, "an evidence without memory");
}

static int holds(jbyteArray array, const char *wanted) {
    struct array *it = (struct array *)array;
    return it && (size_t)it->size == strlen(wanted) && memcmp(it->bytes, wanted, strlen(wanted)) == 0;
}

static void test_mime_types(struct array *photo) {
    struct array page = ARRAY("Text/HTML; Charset=utf-8"), flawed = ARRAY("text"), none = ARRAY("");
    jobject buffer = (jobject)(void *)(photo->bytes + 2);
    thrown = 0;
    wants(holds(ASK(mimeParse, (jbyteArray)&page), "text/html;charset=utf-8") && holds(ASK(mimeParse, (jbyteArray)&flawed), ""), "a MIME type");
    wants(ASK(mimeIsBlocked, (jbyteArray)&page, 0) && !ASK(mimeIsBlocked, (jbyteArray)&page, 2), "a page that is fetched as a script");
    wants(holds(ASK(mimeCompute, (jbyteArray)&none, 0, 0, (jbyteArray)photo, NULL, 2, 3), "image/jpeg"), "a photo without a type");
    wants(holds(ASK(mimeCompute, (jbyteArray)&none, 0, 0, NULL, buffer, 0, 3), "image/jpeg"), "the same of a buffer");
    wants(ASK(mimeIsDecided, (jbyteArray)&page, 1, NULL, buffer, 0, 3), "a page that nobody may sniff");
    wants(thrown == 0 && held == 0, "an exception, or a text that is held for good");
    for (int first = 0; first < 3; first++) {
        refused_from = first;
        wants(!ASK(mimeCompute, (jbyteArray)&none, 0, 0, (jbyteArray)photo, NULL, 2, 3), "a computed type without memory");
        wants(thrown == 1 + first && held == 0, "the error of it");
    }
    refused_from = 1, wants(!ASK(mimeParse, (jbyteArray)&page), "a MIME type without memory");
    refused_from = 1, wants(!ASK(mimeIsDecided, (jbyteArray)&page, 1, (jbyteArray)photo, NULL, 2, 3), "what is decided without memory");
    refused_from = 0, wants(!ASK(mimeIsBlocked, (jbyteArray)&page, 0), "what is blocked without memory");
    wants(thrown == 6 && held == 0, "refused memory is an error each time");
}

static void test_refused(struct array *photo) {
    jlong place[2];
    thrown = 0;
    refused_from = 0, ASK(position, (jbyteArray)photo, NULL, 0, 5);
    refused_from = 0, ASK(morePosition, (jbyteArray)photo, NULL, 0, 5);
    refused_from = 0, ASK(isDecided, (jbyteArray)photo, NULL, 0, 5);
    refused_from = 0, wants(!ASK(encoding, (jbyteArray)photo, NULL, 0, 5), "an encoding without memory");
    refused_from = 0, wants(!ASK(typesMistake, (jbyteArray)photo, (jlongArray)(void *)place), "a mistake without memory");
    wants(thrown == 5 && held == 0, "refused memory is an OutOfMemoryError");
}

int main(void) {
    struct array photo = ARRAY("go\377\330\377");
    char direct[] = "\377\330\377";
    test_answers(&photo, direct);
    test_types(&photo);
    test_names(&photo);
    test_evidence(&photo);
    test_mime_types(&photo);
    test_refused(&photo);
    puts(wrong ? "wrong" : "right");
    return wrong != 0;
}
