/* core.c: the calls of zellunkay.h for Java, as io.zellunkay.Core declares them.

   Numbers go by value. What a call writes is laid out in memory that Java gave, a direct buffer of its own: `jlong at` is its address.
   Core.java alone makes these calls, under the lock of the pool that the machine is of. */
#include <jni.h>
#include <stdlib.h>
#include <string.h>

#define ZK_PATH_API static inline
#include "../../c/paths.c"

#define CALL(type, name) JNIEXPORT type JNICALL Java_io_zellunkay_Core_##name
#define AT(type, number) ((type *)(intptr_t)(number))
#define MACHINE(number) AT(zk_machine, number)

CALL(jint, version)(JNIEnv *env, jclass core) {
    (void)env, (void)core;
    return (jint)zk_version();
}

CALL(jstring, reason)(JNIEnv *env, jclass core, jint status) {
    (void)core;
    return (*env)->NewStringUTF(env, zk_status_text((uint32_t)status));
}

CALL(jlong, address)(JNIEnv *env, jclass core, jobject buffer) {
    (void)core;
    return (jlong)(intptr_t)(*env)->GetDirectBufferAddress(env, buffer);
}

/* The machine's address, or minus the status. */
CALL(jlong, open)(JNIEnv *env, jclass core, jbyteArray line, jint recorder) {
    (void)core;
    zk_machine *machine = NULL;
    jbyte *text = (*env)->GetByteArrayElements(env, line, NULL);
    if (!text) return -(jlong)ZK_NO_MEMORY;
    uint32_t status = zk_open((const uint8_t *)text, (size_t)(*env)->GetArrayLength(env, line), (uint32_t)recorder, &machine);
    (*env)->ReleaseByteArrayElements(env, line, text, JNI_ABORT);
    return status == ZK_DONE ? (jlong)(intptr_t)machine : -(jlong)status;
}

CALL(jint, close)(JNIEnv *env, jclass core, jlong machine) {
    (void)env, (void)core;
    return (jint)zk_close(MACHINE(machine));
}

CALL(jint, step)(JNIEnv *env, jclass core, jlong machine, jint by, jint ask, jlong first, jlong second, jlong value, jlong at) {
    (void)env, (void)core;
    return (jint)zk_path_step(MACHINE(machine), (uint32_t)by, (uint32_t)ask, (uint64_t)first, (uint64_t)second, value, AT(zk_told, at));
}

CALL(jint, enter)(JNIEnv *env, jclass core, jlong machine, jint by, jint kind, jlong at) {
    (void)env, (void)core;
    return (jint)zk_path_enter(MACHINE(machine), (uint32_t)by, (uint32_t)kind, 0, 0, AT(zk_path_entered, at));
}

CALL(jint, turn)(JNIEnv *env, jclass core, jlong machine, jint by, jint ends, jlong slot, jlong at) {
    (void)env, (void)core;
    return (jint)zk_path_turn(MACHINE(machine), (uint32_t)by, (uint32_t)ends, (uint64_t)slot, 0, 0, AT(zk_path_turned, at));
}

CALL(jint, view)(JNIEnv *env, jclass core, jlong machine, jlong at) {
    (void)env, (void)core;
    return (jint)zk_view(MACHINE(machine), AT(zk_pool_view, at));
}

CALL(jint, task)(JNIEnv *env, jclass core, jlong machine, jint task, jlong at) {
    (void)env, (void)core;
    return (jint)zk_task(MACHINE(machine), (uint32_t)task, AT(zk_task_view, at));
}

CALL(jint, release)(JNIEnv *env, jclass core, jlong machine, jint task) {
    (void)env, (void)core;
    return (jint)zk_release(MACHINE(machine), (uint32_t)task);
}

/* The task that the last stop handed back at this index, or -1 behind the last one. */
CALL(jlong, handed)(JNIEnv *env, jclass core, jlong machine, jlong index) {
    (void)env, (void)core;
    uint32_t task;
    return zk_handed(MACHINE(machine), (size_t)index, &task) == ZK_DONE ? (jlong)task : -1;
}

/* How a text is told: `call` writes it into a room of any size. The status goes to status[0]. */
typedef struct told {
    uint32_t (*call)(struct told *told, uint8_t *room, size_t size, size_t *needed);
    zk_machine *machine;
    const uint8_t *text;
    size_t length;
    jint kind;
    uint64_t number;
} told;

static jbyteArray tell(JNIEnv *env, told *told, jintArray status) {
    size_t size = 4096, needed = 0;
    uint8_t *room = (uint8_t *)malloc(size);
    jint ended = room ? (jint)told->call(told, room, size, &needed) : ZK_NO_MEMORY;
    while (ended == ZK_TOO_SMALL) {
        free(room);
        size = needed;
        room = (uint8_t *)malloc(size);
        ended = room ? (jint)told->call(told, room, size, &needed) : ZK_NO_MEMORY;
    }
    if (!room) needed = 0;
    (*env)->SetIntArrayRegion(env, status, 0, 1, &ended);
    jbyteArray answer = (*env)->NewByteArray(env, (jsize)needed);
    if (answer && needed) (*env)->SetByteArrayRegion(env, answer, 0, (jsize)needed, (const jbyte *)room);
    free(room);
    return answer;
}

static uint32_t recorded(told *told, uint8_t *room, size_t size, size_t *needed) {
    return zk_record(told->machine, room, size, needed);
}

CALL(jbyteArray, record)(JNIEnv *env, jclass core, jlong machine, jintArray status) {
    (void)core;
    told told = {.call = recorded, .machine = MACHINE(machine)};
    return tell(env, &told, status);
}

/* The kinds of Texts.java, in its order. */
static uint32_t asked(told *told, uint8_t *room, size_t size, size_t *needed) {
    switch (told->kind) {
    case 0: return zk_audit(told->text, told->length, room, size, needed);
    case 1: return zk_steps(told->text, told->length, room, size, needed);
    case 2: return zk_explore(told->text, told->length, (size_t)told->number, room, size, needed);
    default: return zk_now(told->text, told->length, told->number, room, size, needed);
    }
}

CALL(jbyteArray, text)(JNIEnv *env, jclass core, jint kind, jbyteArray text, jlong number, jintArray status) {
    (void)core;
    jbyte *bytes = (*env)->GetByteArrayElements(env, text, NULL);
    if (!bytes) return NULL;
    told told = {.call = asked, .text = (const uint8_t *)bytes, .length = (size_t)(*env)->GetArrayLength(env, text), .kind = kind, .number = (uint64_t)number};
    jbyteArray answer = tell(env, &told, status);
    (*env)->ReleaseByteArrayElements(env, text, bytes, JNI_ABORT);
    return answer;
}
