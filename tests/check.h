/* What the C tests hold answers to. Each check that fails says where, what it got and what it wanted; `wrong` counts them. */
#ifndef CHECK_H
#define CHECK_H

#include <stdio.h>
#include <string.h>

#include "ship.h"

static unsigned wrong;

/* A number is this one. */
#define IS(got, wanted) check_is(__FILE__, __LINE__, #got, (long long)(got), (long long)(wanted))

/* Bytes are these. */
#define SAME(got, wanted, length) check_same(__FILE__, __LINE__, #got, (got), (wanted), (length))

/* A question is refused so; 0, 0, 0: it is not. */
#define REFUSED(got, number, channel, minute) check_refused(__FILE__, __LINE__, #got, (got), (number), (channel), (minute))

static inline void check_is(const char *file, int line, const char *what, long long got, long long wanted)
{
    if (got == wanted)
        return;
    printf("%s:%d: %s is %lld, not %lld\n", file, line, what, got, wanted);
    wrong++;
}

static inline void check_same(const char *file, int line, const char *what, const void *got, const void *wanted, size_t length)
{
    const unsigned char *a = (const unsigned char *)got, *b = (const unsigned char *)wanted;
    for (size_t i = 0; i < length; i++)
        if (a[i] != b[i]) {
            printf("%s:%d: %s: byte %zu of %zu is %02x, not %02x\n", file, line, what, i, length, a[i], b[i]);
            wrong++;
            return;
        }
}

static inline void check_refused(const char *file, int line, const char *what, zhitomrak_refusal got, uint32_t number, uint32_t channel,
                                 uint32_t minute)
{
    if (got.number == number && got.channel == channel && got.minute == minute)
        return;
    printf("%s:%d: %s: refused %lu, channel %lu, minute %lu; not %lu, %lu, %lu\n", file, line, what, (unsigned long)got.number,
           (unsigned long)got.channel, (unsigned long)got.minute, (unsigned long)number, (unsigned long)channel, (unsigned long)minute);
    wrong++;
}

static inline void open_plain(zhitomrak_store *store)
{
    zhitomrak_settings settings = plain_settings();
    IS(zhitomrak_open(store, &settings), 0);
}

/* A message that is heard. */
static inline void hear(zhitomrak_store *store, zhitomrak_message message)
{
    zhitomrak_heard heard = zhitomrak_hear_message(store, message);
    IS(heard.number, 0);
    IS(heard.late, 0);
}

#endif
