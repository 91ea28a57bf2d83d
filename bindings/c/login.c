/* A log-in at a KDC and a service that was recorded, and an initiator that repeats it. */
#include "login.h"

#include <stdio.h>
#include <stdlib.h>
#include <string.h>

static void read_told(char *line, login *l) {
    static char first[8192], second[8192], number[16];
    if (sscanf(line, "user %63s %63s %63s %63s %63s %15s", l->user, l->realm, l->machine, l->url, l->password, number) == 6) {
        memcpy(l->number, from_hex(number).at, 4);
    } else if (l->step_count < 26 && sscanf(line, "step %8191s %8191s", first, second) == 2) {
        mk_moment *moment = &l->steps[l->step_count++];
        moment->moment = strtoull(first, NULL, 10);
        memcpy(moment->random, from_hex(second).at, 64);
    } else if (l->reply_count < 3 && sscanf(line, "reply %8191s", first) == 1) {
        l->replies[l->reply_count++] = from_hex(first);
    } else if (sscanf(line, "answer %63s %8191s", l->target, first) == 2) {
        l->answer = from_hex(first);
    } else if (sscanf(line, "seal %8191s %8191s", first, second) == 2) {
        l->confounder = from_hex(first);
        l->text = from_hex(second);
    }
}

static void read_answered(char *line, login *l) {
    static char first[8192], second[8192];
    if (l->ask_count < 3 && sscanf(line, "ask %8191s %8191s", first, second) == 2) {
        l->asks[l->ask_count++] = from_hex(second);
    } else if (sscanf(line, "token %8191s", first) == 1) {
        l->token = from_hex(first);
    } else if (sscanf(line, "sealed %8191s", first) == 1) {
        l->sealed = from_hex(first);
    }
}

/* The lines of a file, up to the one that begins with a word. */
static void read_lines(const char *path, const char *last, void (*take)(char *, login *), login *l) {
    static char line[8192];
    FILE *file = fopen(path, "r");
    int goes_on = file != NULL;
    while (goes_on && fgets(line, sizeof line, file) != NULL) {
        take(line, l);
        goes_on = strncmp(line, last, strlen(last)) != 0;
    }
    if (file != NULL) {
        fclose(file);
    }
}

static void read_ccache(char *line, login *l) { l->ccache = from_hex(line); }

int read_login(const char *told, const char *answered, const char *ccache, login *l) {
    read_lines(told, "seal ", read_told, l);
    read_lines(answered, "sealed ", read_answered, l);
    read_lines(ccache, "", read_ccache, l);
    return l->ccache.length == 2179 && l->step_count == 26 && l->reply_count == 3 && l->ask_count == 3 && l->answer.length > 0 && l->sealed.length > 0;
}

mk_reply make(const login *l, mk_initiator *to) {
    return mk_initiator_new(to, text(l->target), strlen(l->target), text(l->machine), strlen(l->machine), ALL_FLAGS, l->number, 4);
}

void set_password(const login *l, mk_initiator *initiator) {
    CHECK(mk_initiator_set_password(initiator, text(l->user), strlen(l->user), text(l->realm), strlen(l->realm), text(l->password),
                                strlen(l->password)).status == MK_OK);
}

void make_ready(const login *l, mk_initiator *to) {
    CHECK(make(l, to).status == MK_OK);
    CHECK(mk_initiator_set_kdc(to, text(l->url), strlen(l->url)).status == MK_OK);
    set_password(l, to);
}

int leads_to(mk_step step, uint32_t next) { return step.reply.status == MK_OK && step.reply.number == 0 && step.next == next; }

int gives(mk_reply reply, const uint8_t *out, const void *wanted, size_t length) {
    return reply.status == MK_OK && reply.length == length && memcmp(out, wanted, length) == 0;
}

int asks(const login *l, mk_initiator *initiator, const octets *request) {
    uint8_t url[64], out[4096];
    return gives(mk_initiator_get_url(initiator, url, sizeof url), url, l->url, strlen(l->url)) &&
           gives(mk_initiator_get_request(initiator, out, sizeof out), out, request->at, request->length);
}
