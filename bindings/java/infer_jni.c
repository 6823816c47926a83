/* The calls of the library for Java. An array is not copied: while one is held no other call of Java is made, and the library
 * never waits, so the collector is kept from it no longer than an answer takes. Bytes.java has checked which bytes are meant. */
#include "infer.h"
#include <jni.h>
#include <stdlib.h>

#define NAME(name) JNICALL Java_dev_hoarvelt_infer_Library_##name

/* Room for each text of a type of one's own: Library.TEXT_SIZE. */
_Static_assert(INFER_TYPES_TEXT_SIZE == 256 && INFER_TEXT_SIZE <= 256, "Library.java has another size");

/* Where the bytes of an array or else of a direct buffer begin. Of an array it is null if memory is refused, and of a buffer if
 * it has none. */
static char *held(JNIEnv *env, jbyteArray array, jobject direct) {
    return array ? (*env)->GetPrimitiveArrayCritical(env, array, NULL) : (*env)->GetDirectBufferAddress(env, direct);
}

static void release(JNIEnv *env, jbyteArray array, char *at) {
    if (array && at) (*env)->ReleasePrimitiveArrayCritical(env, array, at, JNI_ABORT);
}

static void refuse(JNIEnv *env) { (*env)->ThrowNew(env, (*env)->FindClass(env, "java/lang/OutOfMemoryError"), "an array cannot be held"); }

/* A function of Java for a call that is asked about bytes. */
#define ASKS(type, name, call) \
    JNIEXPORT type NAME(name)(JNIEnv *env, jclass self, jbyteArray array, jobject direct, jint from, jint size) { \
        char *at = held(env, array, direct); \
        type answer = 0; \
        (void)self; \
        if (array && !at) return refuse(env), answer; \
        answer = call(array ? at + from : at, (size_t)size); \
        release(env, array, at); \
        return answer; \
    }

ASKS(jint, position, infer_position)
ASKS(jint, morePosition, infer_more_position)
ASKS(jboolean, isDecided, infer_is_decided)
ASKS(jboolean, moreIsDecided, infer_more_is_decided)
ASKS(jboolean, mimeMayBeScriptable, infer_mime_may_be_scriptable)

JNIEXPORT jstring NAME(encoding)(JNIEnv *env, jclass self, jbyteArray array, jobject direct, jint from, jint size) {
    char *at = held(env, array, direct), name[INFER_TEXT_SIZE];
    (void)self;
    if (array && !at) return refuse(env), NULL;
    infer_encoding(array ? at + from : at, (size_t)size, name, sizeof name);
    release(env, array, at);
    return (*env)->NewStringUTF(env, name);
}

/* What a call makes of a text and of bytes, of which memory for either may be refused: then is_held is 0. */
#define WITH_BOTH(text, array, direct, call) \
    size_t text_size = (size_t)(*env)->GetArrayLength(env, text); \
    /* Where a buffer begins is asked before an array is held. */ \
    char *at = array ? NULL : held(env, NULL, direct), *chars = held(env, text, NULL); \
    int is_held; \
    (void)self; \
    if (array) at = held(env, array, NULL); \
    is_held = chars && (at || !array); \
    if (is_held) call; \
    release(env, array, at); \
    release(env, text, chars)

JNIEXPORT jint NAME(typesGet)(JNIEnv *env, jclass self, jbyteArray text, jbyteArray array, jobject direct, jint from, jint size, jbyteArray mime_type, jbyteArray extension) {
    jbyte told[2][INFER_TYPES_TEXT_SIZE] = {{0}};
    jint class_code = INFER_NO_ROW;
    WITH_BOTH(text, array, direct,
        class_code = infer_types_get(chars, text_size, array ? at + from : at, (size_t)size, (char *)told[0], sizeof told[0], (char *)told[1], sizeof told[1]));
    if (!is_held) return refuse(env), class_code;
    if (class_code == INFER_NO_ROW) return class_code;
    (*env)->SetByteArrayRegion(env, mime_type, 0, sizeof told[0], told[0]);
    (*env)->SetByteArrayRegion(env, extension, 0, sizeof told[1], told[1]);
    return class_code;
}

/* Named.java reads the structure as bytes. */
_Static_assert(sizeof(struct infer_named_answer) == 308, "Named.java has another size");

JNIEXPORT void NAME(named)(JNIEnv *env, jclass self, jbyteArray name, jbyteArray array, jobject direct, jint from, jint size, jbyteArray told) {
    struct infer_named_answer answer = {0};
    WITH_BOTH(name, array, direct, infer_named(chars, text_size, array ? at + from : at, (size_t)size, &answer));
    if (!is_held) {
        refuse(env);
        return;
    }
    (*env)->SetByteArrayRegion(env, told, 0, sizeof answer, (const jbyte *)&answer);
}

JNIEXPORT jint NAME(line)(JNIEnv *env, jclass self, jbyteArray name, jbyteArray array, jobject direct, jint from, jint size, jbyteArray room) {
    infer_label_options options = {0};
    size_t name_size = (size_t)(*env)->GetArrayLength(env, name), room_size = (size_t)(*env)->GetArrayLength(env, room), length = 0;
    char *at = array ? NULL : held(env, NULL, direct), *text = held(env, name, NULL), *out = malloc(room_size);
    (void)self;
    if (array) at = held(env, array, NULL);
    if (text && out && (at || !array)) length = infer_label_line(text, name_size, array ? at + from : at, (size_t)size, &options, NULL, out, room_size);
    release(env, array, at);
    release(env, name, text);
    if (length == 0) {
        free(out);
        refuse(env);
        return 0;
    }
    (*env)->SetByteArrayRegion(env, room, 0, (jsize)room_size, (const jbyte *)out);
    free(out);
    return (jint)length;
}

JNIEXPORT jint NAME(evidence)(JNIEnv *env, jclass self, jbyteArray array, jobject direct, jint from, jint size, jboolean more, jlongArray ranges, jlongArray needs) {
    infer_range found[INFER_MOST_RANGES];
    infer_needs all = {0};
    jlong numbers[4 * INFER_MOST_RANGES];
    char *at = held(env, array, direct);
    size_t count = 0;
    jint row;
    (void)self;
    if (array && !at) return refuse(env), INFER_NO_ROW;
    row = (more ? infer_more_evidence : infer_evidence)(array ? at + from : at, (size_t)size, found, INFER_MOST_RANGES, &all);
    release(env, array, at);
    for (; count < all.wanted && count < INFER_MOST_RANGES; count++) {
        jlong *to = numbers + 4 * count;
        to[0] = (jlong)found[count].place, to[1] = (jlong)found[count].len, to[2] = (jlong)found[count].step, to[3] = found[count].row;
    }
    (*env)->SetLongArrayRegion(env, ranges, 0, (jsize)(4 * count), numbers);
    (*env)->SetLongArrayRegion(env, needs, 0, 3, (jlong[]){(jlong)all.wanted, (jlong)all.least, all.is_exact});
    return row;
}

/* A function of Java for a call that is asked about a text. */
#define ASKS_TEXT(type, name, call) \
    JNIEXPORT type NAME(name)(JNIEnv *env, jclass self, jbyteArray text) { \
        size_t size = (size_t)(*env)->GetArrayLength(env, text); \
        char *at = held(env, text, NULL); \
        type answer = 0; \
        (void)self; \
        if (!at) return refuse(env), answer; \
        answer = (type)call(at, size); \
        release(env, text, at); \
        return answer; \
    }

ASKS_TEXT(jint, oddities, infer_oddities)
ASKS_TEXT(jint, mimeGroups, infer_mime_groups)
ASKS_TEXT(jboolean, mimeIsNosniff, infer_mime_is_nosniff)
ASKS_TEXT(jboolean, mimeIsOldServer, infer_mime_is_old_server)

JNIEXPORT jboolean NAME(mimeIsBlocked)(JNIEnv *env, jclass self, jbyteArray text, jint destination) {
    size_t size = (size_t)(*env)->GetArrayLength(env, text);
    char *at = held(env, text, NULL);
    jboolean answer;
    (void)self;
    if (!at) return refuse(env), 0;
    answer = infer_mime_is_blocked(at, size, destination);
    release(env, text, at);
    return answer;
}

/* An array with the bytes of a MIME type. Where memory for it is refused, Java has thrown already. */
static jbyteArray array_of(JNIEnv *env, const char *mime, size_t size) {
    jbyteArray array = (*env)->NewByteArray(env, (jsize)size);
    if (array) (*env)->SetByteArrayRegion(env, array, 0, (jsize)size, (const jbyte *)mime);
    return array;
}

/* A function of Java for a call that finds the MIME type of a text. */
#define ASKS_MIME(name, call) \
    JNIEXPORT jbyteArray NAME(name)(JNIEnv *env, jclass self, jbyteArray text) { \
        char *at, mime[INFER_MIME_SIZE]; \
        size_t size = (size_t)(*env)->GetArrayLength(env, text); \
        (void)self; \
        at = held(env, text, NULL); \
        if (!at) return refuse(env), NULL; \
        size = call(at, size, mime, sizeof mime); \
        release(env, text, at); \
        return array_of(env, mime, size); \
    }

ASKS_MIME(mimeParse, infer_mime_parse)
ASKS_MIME(mimeExtract, infer_mime_extract)

JNIEXPORT jbyteArray NAME(mimeCompute)(JNIEnv *env, jclass self, jbyteArray text, jint flags, jint context, jbyteArray array, jobject direct, jint from, jint size) {
    char mime[INFER_MIME_SIZE];
    size_t found = 0;
    WITH_BOTH(text, array, direct,
        found = infer_mime_compute(chars, text_size, (uint32_t)flags, context, array ? at + from : at, (size_t)size, mime, sizeof mime));
    if (!is_held) return refuse(env), NULL;
    return array_of(env, mime, found);
}

JNIEXPORT jboolean NAME(mimeIsDecided)(JNIEnv *env, jclass self, jbyteArray text, jint flags, jbyteArray array, jobject direct, jint from, jint size) {
    jboolean answer = 0;
    WITH_BOTH(text, array, direct, answer = infer_mime_is_decided(chars, text_size, (uint32_t)flags, array ? at + from : at, (size_t)size));
    if (!is_held) refuse(env);
    return answer;
}

JNIEXPORT jstring NAME(typesMistake)(JNIEnv *env, jclass self, jbyteArray text, jlongArray place) {
    char reason[INFER_TEXT_SIZE] = "", *types;
    size_t line = 0, column = 0, text_size = (size_t)(*env)->GetArrayLength(env, text);
    (void)self;
    types = held(env, text, NULL);
    if (!types) return refuse(env), NULL;
    infer_types_check(types, text_size, &line, &column, reason, sizeof reason);
    release(env, text, types);
    (*env)->SetLongArrayRegion(env, place, 0, 2, (jlong[]){(jlong)line, (jlong)column});
    return (*env)->NewStringUTF(env, reason);
}

JNIEXPORT jint NAME(rowCount)(JNIEnv *env, jclass self) { (void)env, (void)self; return (jint)infer_row_count(); }
JNIEXPORT jint NAME(moreRowCount)(JNIEnv *env, jclass self) { (void)env, (void)self; return (jint)infer_more_row_count(); }
JNIEXPORT jint NAME(classCode)(JNIEnv *env, jclass self, jint row) { (void)env, (void)self; return infer_class(row); }

/* A function of Java for a text of the library's own. */
#define TELLS(name, call) \
    JNIEXPORT jstring NAME(name)(JNIEnv *env, jclass self, jint number) { (void)self; return (*env)->NewStringUTF(env, call(number)); }

TELLS(mimeType, infer_mime_type_text)
TELLS(extension, infer_extension_text)
TELLS(className, infer_class_name_text)

JNIEXPORT jstring NAME(version)(JNIEnv *env, jclass self) {
    char text[INFER_TEXT_SIZE];
    (void)self;
    infer_version(text, sizeof text);
    return (*env)->NewStringUTF(env, text);
}
