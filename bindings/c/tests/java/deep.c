/* The native methods of Deep.java. */
#include <bcs.h>
#include <jni.h>
#include <stdlib.h>

struct piece {
    jbyteArray array;
    jbyte *at;
    size_t length;
};

static struct piece take(JNIEnv *env, jbyteArray array) {
    return (struct piece){array, (*env)->GetByteArrayElements(env, array, NULL), (size_t)(*env)->GetArrayLength(env, array)};
}

static void give_back(JNIEnv *env, struct piece piece) {
    (*env)->ReleaseByteArrayElements(env, piece.array, piece.at, JNI_ABORT);
}

JNIEXPORT jlong JNICALL Java_Deep_open(JNIEnv *env, jclass type, jbyteArray registry) {
    (void)type;
    const struct piece text = take(env, registry);
    bcs_handle *handle;
    const bcs_answer answer = bcs_open(&handle, (const uint8_t *)text.at, text.length);
    give_back(env, text);
    if (answer.status != BCS_DONE) {
        abort();
    }
    return (jlong)(intptr_t)handle;
}

JNIEXPORT jint JNICALL Java_Deep_ask(JNIEnv *env, jclass type, jlong handle, jint call, jbyteArray format, jbyteArray input) {
    (void)type;
    const struct piece its_format = take(env, format), its_input = take(env, input);
    static _Thread_local uint8_t out[10000];
    const bcs_question question = {
        .size = sizeof question,
        .call = (uint32_t)call,
        .depth = BCS_DEPTH,
        .nodes = BCS_NODES,
        .format = (const uint8_t *)its_format.at,
        .format_length = its_format.length,
        .first = (const uint8_t *)its_input.at,
        .first_length = its_input.length,
    };
    const bcs_answer answer = bcs_ask((bcs_handle *)(intptr_t)handle, &question, out, sizeof out, NULL, 0);
    give_back(env, its_format);
    give_back(env, its_input);
    return (jint)answer.status;
}
