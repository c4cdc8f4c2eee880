/* The calls of cuvragyen.h for Cuvragyen.java. */
#include <cuvragyen.h>
#include <jni.h>
#include <stdlib.h>
#include <string.h>

JNIEXPORT jlong JNICALL Java_Cuvragyen_open(JNIEnv *env, jclass type, jbyteArray options, jbyteArray schema) {
    (void)type;
    cuvragyen *log = calloc(1, sizeof *log);
    jbyte *text = (*env)->GetByteArrayElements(env, options, NULL);
    jbyte *tables = (*env)->GetByteArrayElements(env, schema, NULL);
    uint32_t opened = CUVRAGYEN_MEMORY;
    uint64_t line = 0;
    if (log && text && tables) {
        opened = cuvragyen_open_with_schema(log, (const char *)text, (*env)->GetArrayLength(env, options), (const uint8_t *)tables,
                                            (*env)->GetArrayLength(env, schema), &line);
    }
    if (tables) {
        (*env)->ReleaseByteArrayElements(env, schema, tables, JNI_ABORT);
    }
    if (text) {
        (*env)->ReleaseByteArrayElements(env, options, text, JNI_ABORT);
    }
    if (opened != CUVRAGYEN_OK) {
        free(log);
        return -(jlong)(opened + (line << 8));
    }
    return (jlong)log;
}

JNIEXPORT jint JNICALL Java_Cuvragyen_push(JNIEnv *env, jclass type, jlong log, jbyteArray piece, jint length) {
    (void)type;
    void *bytes = (*env)->GetPrimitiveArrayCritical(env, piece, NULL);
    if (!bytes) {
        return CUVRAGYEN_MEMORY;
    }
    uint32_t pushed = cuvragyen_push((cuvragyen *)log, bytes, length);
    (*env)->ReleasePrimitiveArrayCritical(env, piece, bytes, JNI_ABORT);
    return (jint)pushed;
}

JNIEXPORT jint JNICALL Java_Cuvragyen_advance(JNIEnv *env, jclass type, jlong log) {
    (void)env, (void)type;
    return (jint)cuvragyen_next((cuvragyen *)log);
}

JNIEXPORT jobject JNICALL Java_Cuvragyen_shown(JNIEnv *env, jclass type, jlong log) {
    (void)type;
    cuvragyen_view shown;
    if (cuvragyen_show((cuvragyen *)log, &shown) != CUVRAGYEN_TRANSACTION) {
        return NULL;
    }
    return (*env)->NewDirectByteBuffer(env, (void *)shown.at, shown.len);
}

JNIEXPORT void JNICALL Java_Cuvragyen_stop(JNIEnv *env, jclass type, jlong log, jlongArray end) {
    (void)type;
    cuvragyen_end ended;
    cuvragyen_stop((cuvragyen *)log, &ended);
    jlong numbers[] = {ended.verdict, (jlong)ended.offset, ended.has_last_commit ? (jlong)ended.last_commit : -1, ended.is_open, ended.is_cut};
    (*env)->SetLongArrayRegion(env, end, 0, 5, numbers);
}

JNIEXPORT void JNICALL Java_Cuvragyen_close(JNIEnv *env, jclass type, jlong log) {
    (void)env, (void)type;
    cuvragyen_close((cuvragyen *)log);
    free((cuvragyen *)log);
}

JNIEXPORT jstring JNICALL Java_Cuvragyen_name(JNIEnv *env, jclass type, jint number) {
    (void)type;
    if (number == CUVRAGYEN_BAD_OPTION || number == CUVRAGYEN_BAD_VALUE || number == CUVRAGYEN_BAD_SCHEMA) {
        return (*env)->NewStringUTF(env, number == CUVRAGYEN_BAD_OPTION ? "Option" : number == CUVRAGYEN_BAD_VALUE ? "Value" : "Schema");
    }
    cuvragyen_view name;
    char text[32] = "";
    cuvragyen_verdict_name((uint32_t)number, &name);
    memcpy(text, name.at, name.len < sizeof text ? name.len : sizeof text - 1);
    return (*env)->NewStringUTF(env, name.len ? text : "Unknown");
}
