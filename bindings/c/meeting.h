/* Two ends of the library that meet: an initiator that logs in at an acceptor. */
#ifndef MEETING_H
#define MEETING_H

#include "checks.h"

/* The input of both ends. */
typedef struct {
    char name[64], machine[64], target[64], url[64];
    octets key;
    octets user_key;
    mk_moment moment;
    octets replies[3];
    size_t reply_count;
} exchange;

/* Reads the lines of examples/both-ends: the service's key, and what a KDC has answered. */
int read_exchange(const char *path, exchange *);

/* The token of an initiator for the service, bound to a channel with these data unless they are NULL. */
octets token_for(const exchange *, const char *channel);

/* Both ends of a session, in empty handles: the initiator's, and the acceptor's. */
void meet(const exchange *, mk_session *client, mk_session *server);

/* From now on memory is refused once, after this many growths; with -1 it is not. */
void refuse_growth(long number);

/* How many blocks of memory were given and have not come back. */
long blocks_held(void);

/* How many blocks of memory were given or grown at all, those that came back too. */
long blocks_given(void);

#endif
