/* rstar.Node over rstar.h. */
#include "rstar.h"
#include <errno.h>
#include <jni.h>
#include <stdlib.h>

/* An open node, where it stays until it is closed, and room for its answers. */
struct place {
    rstar_node node;
    unsigned char *room;
    size_t room_size;
};

static void throw_refused(JNIEnv *env, unsigned int number)
{
    int reason = number == RSTAR_IO || number == RSTAR_DEVICE ? errno : 0;
    jclass type = (*env)->FindClass(env, "rstar/Refused");
    jmethodID make = type ? (*env)->GetMethodID(env, type, "<init>", "(II)V") : 0;
    jobject why = make ? (*env)->NewObject(env, type, make, (jint)number, (jint)reason) : 0;
    if (why)
        (*env)->Throw(env, (jthrowable)why);
}

static jbyteArray bytes_of(JNIEnv *env, const unsigned char *room, size_t size)
{
    jbyteArray made = (*env)->NewByteArray(env, (jsize)size);
    if (made)
        (*env)->SetByteArrayRegion(env, made, 0, (jsize)size, (const jbyte *)room);
    return made;
}

/* Where 0 or a pointer of Java's long is. */
static struct place *at(jlong place)
{
    return (struct place *)(size_t)place;
}

/* The last answer of a node, whatever its size. */
static jbyteArray fetch(JNIEnv *env, struct place *place, unsigned int why, size_t size)
{
    while (why == RSTAR_DONE && size > place->room_size) {
        unsigned char *more = realloc(place->room, size);
        if (!more) {
            why = RSTAR_MEMORY;
            break;
        }
        place->room = more;
        place->room_size = size;
        why = rstar_node_answer(&place->node, place->room, place->room_size, &size);
    }
    if (why == RSTAR_DONE)
        return bytes_of(env, place->room, size);
    throw_refused(env, why);
    return 0;
}

JNIEXPORT jint JNICALL Java_rstar_Node_version(JNIEnv *env, jclass type)
{
    (void)env;
    (void)type;
    return (jint)rstar_version();
}

JNIEXPORT jlong JNICALL Java_rstar_Node_open(JNIEnv *env, jclass type, jbyteArray tree, jint process, jbyteArray path, jint how)
{
    struct place *place = calloc(1, sizeof *place);
    jbyte *text = (*env)->GetByteArrayElements(env, tree, 0), *name = (*env)->GetByteArrayElements(env, path, 0);
    unsigned int why = RSTAR_MEMORY;
    (void)type;
    if (place && text && name) {
        place->room_size = 1024;
        place->room = malloc(place->room_size);
        if (place->room)
            why = rstar_node_open(text, (size_t)(*env)->GetArrayLength(env, tree), (unsigned int)process, name,
                                  (size_t)(*env)->GetArrayLength(env, path), (unsigned int)how, &place->node);
    }
    if (text)
        (*env)->ReleaseByteArrayElements(env, tree, text, JNI_ABORT);
    if (name)
        (*env)->ReleaseByteArrayElements(env, path, name, JNI_ABORT);
    if (why == RSTAR_DONE)
        return (jlong)(size_t)place;
    if (place)
        free(place->room);
    free(place);
    throw_refused(env, why);
    return 0;
}

JNIEXPORT jbyteArray JNICALL Java_rstar_Node_lineBytes(JNIEnv *env, jclass type, jlong handle, jbyteArray line)
{
    struct place *place = at(handle);
    jbyte *text = (*env)->GetByteArrayElements(env, line, 0);
    size_t size = 0;
    unsigned int why = RSTAR_MEMORY;
    (void)type;
    if (text) {
        why = rstar_node_line(&place->node, text, (size_t)(*env)->GetArrayLength(env, line), place->room, place->room_size, &size);
        (*env)->ReleaseByteArrayElements(env, line, text, JNI_ABORT);
    }
    return fetch(env, place, why, size);
}

JNIEXPORT jbyteArray JNICALL Java_rstar_Node_answer(JNIEnv *env, jclass type, jlong handle)
{
    struct place *place = at(handle);
    size_t size = 0;
    unsigned int why = rstar_node_answer(&place->node, place->room, place->room_size, &size);
    (void)type;
    return fetch(env, place, why, size);
}

JNIEXPORT void JNICALL Java_rstar_Node_release(JNIEnv *env, jclass type, jlong handle)
{
    struct place *place = at(handle);
    unsigned int why = rstar_node_close(&place->node);
    int reason = errno;
    (void)type;
    free(place->room);
    free(place);
    errno = reason;
    if (why != RSTAR_DONE)
        throw_refused(env, why);
}

/* What a call without a node tells of some bytes; it is made again if the room was short. */
typedef unsigned int teller(const unsigned char *bytes, size_t size, unsigned int first, unsigned int second, unsigned char *room,
                            size_t room_size, size_t *told, unsigned int *out);

static jbyteArray tell(JNIEnv *env, jbyteArray given, teller *call, jint first, jint second, jintArray out, int count)
{
    jbyte *bytes = (*env)->GetByteArrayElements(env, given, 0);
    size_t size = bytes ? (size_t)(*env)->GetArrayLength(env, given) : 0, room_size = 512, told = 0;
    unsigned char *room = malloc(room_size);
    unsigned int why = bytes && room ? RSTAR_DONE : RSTAR_MEMORY, numbers[2] = { 0, 0 };
    jbyteArray made = 0;
    while (why == RSTAR_DONE) {
        unsigned char *more;
        why = call((const unsigned char *)bytes, size, (unsigned int)first, (unsigned int)second, room, room_size, &told, numbers);
        if (why != RSTAR_DONE || told <= room_size)
            break;
        more = realloc(room, told);
        if (!more) {
            why = RSTAR_MEMORY;
            break;
        }
        room = more;
        room_size = told;
    }
    if (why == RSTAR_DONE) {
        jint given_out[2];
        given_out[0] = (jint)numbers[0];
        given_out[1] = (jint)numbers[1];
        if (out)
            (*env)->SetIntArrayRegion(env, out, 0, count, given_out);
        made = bytes_of(env, room, told);
    }
    if (bytes)
        (*env)->ReleaseByteArrayElements(env, given, bytes, JNI_ABORT);
    free(room);
    if (why != RSTAR_DONE)
        throw_refused(env, why);
    return made;
}

static unsigned int tell_audit(const unsigned char *bytes, size_t size, unsigned int explain, unsigned int none, unsigned char *room,
                               size_t room_size, size_t *told, unsigned int *out)
{
    (void)none;
    return rstar_audit(bytes, size, explain, room, room_size, told, out);
}

static unsigned int tell_log(const unsigned char *bytes, size_t size, unsigned int none, unsigned int more, unsigned char *room,
                             size_t room_size, size_t *told, unsigned int *out)
{
    (void)none;
    (void)more;
    return rstar_log(bytes, size, room, room_size, told, out);
}

static unsigned int tell_text(const unsigned char *bytes, size_t size, unsigned int none, unsigned int more, unsigned char *room,
                              size_t room_size, size_t *told, unsigned int *out)
{
    (void)none;
    (void)more;
    (void)out;
    return rstar_xid_text(bytes, size, room, room_size, told);
}

static unsigned int tell_bytes(const unsigned char *bytes, size_t size, unsigned int none, unsigned int more, unsigned char *room,
                               size_t room_size, size_t *told, unsigned int *out)
{
    (void)none;
    (void)more;
    (void)out;
    return rstar_xid_bytes(bytes, size, room, room_size, told);
}

static unsigned int tell_of_case(const unsigned char *bytes, size_t size, unsigned int root, unsigned int parent,
                                 unsigned char *room, size_t room_size, size_t *told, unsigned int *out)
{
    (void)out;
    return rstar_xid_of_case(root, parent, bytes, size, room, room_size, told);
}

static unsigned int tell_case(const unsigned char *bytes, size_t size, unsigned int none, unsigned int more, unsigned char *room,
                              size_t room_size, size_t *told, unsigned int *out)
{
    (void)none;
    (void)more;
    return rstar_xid_case(bytes, size, &out[0], &out[1], room, room_size, told);
}

JNIEXPORT jbyteArray JNICALL Java_rstar_Node_auditBytes(JNIEnv *env, jclass type, jbyteArray logs, jint explain, jintArray ending)
{
    (void)type;
    return tell(env, logs, tell_audit, explain, 0, ending, 1);
}

JNIEXPORT jbyteArray JNICALL Java_rstar_Node_logBytes(JNIEnv *env, jclass type, jbyteArray logs, jintArray ending)
{
    (void)type;
    return tell(env, logs, tell_log, 0, 0, ending, 1);
}

JNIEXPORT jbyteArray JNICALL Java_rstar_Node_xidTextOf(JNIEnv *env, jclass type, jbyteArray xid)
{
    (void)type;
    return tell(env, xid, tell_text, 0, 0, 0, 0);
}

JNIEXPORT jbyteArray JNICALL Java_rstar_Node_xidBytesOf(JNIEnv *env, jclass type, jbyteArray text)
{
    (void)type;
    return tell(env, text, tell_bytes, 0, 0, 0, 0);
}

JNIEXPORT jbyteArray JNICALL Java_rstar_Node_xidOfCaseBytes(JNIEnv *env, jclass type, jint root, jint parent, jbyteArray name)
{
    (void)type;
    return tell(env, name, tell_of_case, root, parent, 0, 0);
}

JNIEXPORT jbyteArray JNICALL Java_rstar_Node_xidCaseOf(JNIEnv *env, jclass type, jbyteArray xid, jintArray out)
{
    (void)type;
    return tell(env, xid, tell_case, 0, 0, out, 2);
}
