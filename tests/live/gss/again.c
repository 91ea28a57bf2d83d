/* Keeps the first token of the last context that a client of GSS-API begins in the file that KEEP names, or gives what is in the file that
 * AGAIN names in the place of each first token:  LD_PRELOAD=again.so KEEP=FILE CLIENT, LD_PRELOAD=again.so AGAIN=FILE CLIENT */
#define _GNU_SOURCE
#include <dlfcn.h>
#include <gssapi/gssapi.h>
#include <stdio.h>
#include <stdlib.h>

typedef OM_uint32 init_call(OM_uint32 *, gss_cred_id_t, gss_ctx_id_t *, gss_name_t, gss_OID, OM_uint32, OM_uint32,
                            gss_channel_bindings_t, gss_buffer_t, gss_OID *, gss_buffer_t, OM_uint32 *, OM_uint32 *);

static void keep(const char *path, const gss_buffer_t token) {
    FILE *file = path ? fopen(path, "wb") : NULL;
    if (!file) return;
    fwrite(token->value, 1, token->length, file);
    fclose(file);
}

static void give(const char *path, gss_buffer_t token) {
    static char kept[65536];
    FILE *file = path ? fopen(path, "rb") : NULL;
    if (!file) return;
    size_t length = fread(kept, 1, sizeof kept, file);
    OM_uint32 minor;
    fclose(file);
    gss_release_buffer(&minor, token);
    token->value = malloc(length);
    token->length = token->value ? length : 0;
    for (size_t n = 0; n < token->length; n++) ((char *)token->value)[n] = kept[n];
}

OM_uint32 gss_init_sec_context(OM_uint32 *minor, gss_cred_id_t cred, gss_ctx_id_t *context, gss_name_t target, gss_OID mech,
                               OM_uint32 flags, OM_uint32 time, gss_channel_bindings_t bindings, gss_buffer_t input, gss_OID *actual,
                               gss_buffer_t output, OM_uint32 *ret_flags, OM_uint32 *life) {
    init_call *next = (init_call *)dlsym(RTLD_NEXT, "gss_init_sec_context");
    int is_first = *context == GSS_C_NO_CONTEXT;
    OM_uint32 status = next(minor, cred, context, target, mech, flags, time, bindings, input, actual, output, ret_flags, life);
    if (!is_first || GSS_ERROR(status) || output->length == 0) return status;
    keep(getenv("KEEP"), output);
    give(getenv("AGAIN"), output);
    return status;
}
