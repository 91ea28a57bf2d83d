/* The clock and the random bytes of the system, for mk_moment. Not proved, and not called by the library. */
#define _GNU_SOURCE
#include "menolavuri.h"

#include <errno.h>
#include <string.h>
#include <sys/random.h>
#include <time.h>

int mk_random(uint8_t *out, size_t length) {
    size_t done = 0;
    while (done < length) {
        ssize_t count = getrandom(out + done, length - done, 0);
        if (count > 0) {
            done += (size_t)count;
        } else if (count == 0 || errno != EINTR) {
            int error = count == 0 ? EIO : errno;
            memset(out, 0, length);
            return error;
        }
    }
    return 0;
}

int mk_now(mk_moment *moment) {
    struct timespec now;
    memset(moment, 0, sizeof *moment);
    if (clock_gettime(CLOCK_REALTIME, &now) != 0) {
        return errno;
    }
    if (now.tv_sec < 0) {
        return ERANGE;
    }
    int error = mk_random(moment->random, sizeof moment->random);
    if (error == 0) {
        moment->moment = (uint64_t)now.tv_sec * 1000000 + (uint64_t)now.tv_nsec / 1000;
    }
    return error;
}
