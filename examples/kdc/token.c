// Prints an event with a new token for a service: ./token 1 host@server.example.com, and with mutual authentication: .. M
#include <gssapi/gssapi.h>
#include <stdio.h>
#include <string.h>
#include <sys/random.h>
#include <sys/time.h>

static void hex(const unsigned char *octets, size_t length) {
    for (size_t i = 0; i < length; i++) printf("%02x", octets[i]);
}

int main(int argc, char **argv) {
    if (argc < 3) return 2;
    OM_uint32 minor, flags = argc > 3 ? GSS_C_MUTUAL_FLAG : 0;
    gss_buffer_desc text = {strlen(argv[2]), argv[2]}, token;
    gss_name_t service;
    gss_ctx_id_t context = GSS_C_NO_CONTEXT;
    unsigned char random[64];
    struct timeval now;
    gss_import_name(&minor, &text, GSS_C_NT_HOSTBASED_SERVICE, &service);
    OM_uint32 major = gss_init_sec_context(&minor, GSS_C_NO_CREDENTIAL, &context, service, GSS_C_NO_OID, flags, 0,
        GSS_C_NO_CHANNEL_BINDINGS, GSS_C_NO_BUFFER, NULL, &token, NULL, NULL);
    if (GSS_ERROR(major) || getrandom(random, 64, 0) != 64 || gettimeofday(&now, NULL)) return 1;
    printf("event %s %ld%06ld ", argv[1], (long)now.tv_sec, (long)now.tv_usec);
    hex(random, 64);
    printf(" - token ");
    hex(token.value, token.length);
    printf("\n");
    return 0;
}
