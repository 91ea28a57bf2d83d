/* A log-in at a KDC and a service that was recorded, and an initiator that repeats it. */
#ifndef LOGIN_H
#define LOGIN_H

#include "checks.h"

/* The input of an initiator, as crates/example_initiator reads it, and its requests, tokens and messages. */
typedef struct {
    char user[64], realm[64], machine[64], url[64], password[64], target[64];
    uint8_t number[4];
    mk_moment steps[26]; /* those of the start and of replies, and from 13 on those of the service's answer */
    size_t step_count;
    octets replies[3];
    size_t reply_count;
    octets answer;
    octets confounder;
    octets text;
    octets asks[3];
    size_t ask_count;
    octets token;
    octets sealed;
    octets ccache;
} login;

#define ALL_FLAGS ((uint32_t)(MK_MUTUAL_AUTH | MK_REPLAY_DETECT | MK_SEQUENCE_DETECT | MK_CONFIDENTIALITY | MK_INTEGRITY))

/* Reads the input and the answers of crates/example_initiator, and a credential cache in hex: whether all of it is there. */
int read_login(const char *told, const char *answered, const char *ccache, login *l);

mk_reply make(const login *l, mk_initiator *to);

void set_password(const login *l, mk_initiator *initiator);

/* An initiator of the recorded user at its KDC. */
void make_ready(const login *l, mk_initiator *to);

/* Whether the step was done, and this comes next. */
int leads_to(mk_step step, uint32_t next);

int gives(mk_reply reply, const uint8_t *out, const void *wanted, size_t length);

/* Whether it asks this KDC so. */
int asks(const login *l, mk_initiator *initiator, const octets *request);

/* The calls with the tickets of a user: a round of them. */
void try_tickets(const login *l);

#endif
