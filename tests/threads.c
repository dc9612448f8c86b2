/* Eight threads, each with a store of its own, hear and ask; what each gets is what one thread alone gets. Then all eight ask one store,
 * on pages that may not be written, and each gets the same. */
#define _DEFAULT_SOURCE 1
#include <pthread.h>
#include <stdlib.h>
#include <sys/mman.h>

#include "check.h"

enum { THREADS = 8 };
#ifndef MESSAGES
#define MESSAGES 100000
#endif
#ifndef ROUNDS
#define ROUNDS 20
#endif

/* All that was answered, in one number: FNV-1a by words. */
typedef uint64_t digest;

static void add(digest *d, uint64_t word)
{
    *d = (*d ^ word) * UINT64_C(1099511628211);
}

/* The next number of a row that its seed decides: xorshift. */
static uint32_t next(uint64_t *seed)
{
    *seed ^= *seed << 13;
    *seed ^= *seed >> 7;
    *seed ^= *seed << 17;
    return (uint32_t)(*seed >> 32);
}

static void ask(const zhitomrak_store *store, uint32_t kind, uint32_t minute, digest *d)
{
    zhitomrak_record record;
    memset(&record, 0, sizeof record);
    zhitomrak_refusal why = zhitomrak_record_of(store, kind, minute, &record);
    add(d, why.number);
    add(d, why.channel);
    add(d, why.minute);
    for (size_t i = 0; i < 5; i++)
        add(d, (uint32_t)record.of.figures[i]);
}

/* A message of any channel, now and then one that is late, repeated, or out of limits. */
static zhitomrak_message any_message(uint32_t minute, uint64_t *seed)
{
    const uint32_t channel = next(seed) % 6, odd = next(seed) % 64;
    const float tenths = (float)(next(seed) % 200) / 10.0f;
    if (odd == 0)
        minute -= minute < 10 ? minute : 10;
    switch (channel) {
    case 0: return zhitomrak_message_barometer(minute, 990.0f + tenths);
    case 2: return zhitomrak_message_apparent_wind(minute, tenths, (float)(next(seed) % 370));
    case 3: return zhitomrak_message_ship_motion(minute, tenths, (float)(next(seed) % 360));
    case 5: return zhitomrak_message_wet_bulb(minute, tenths - 10.0f, odd % 4);
    default: return zhitomrak_message_of(channel, 0, minute, tenths - 5.0f, 0);
    }
}

typedef struct {
    zhitomrak_store store;
    uint64_t seed;
    digest answers;
} watch;

/* Hears all messages of a seed, and asks after each. */
static void *keep(void *of)
{
    watch *w = (watch *)of;
    uint64_t seed = w->seed;
    zhitomrak_settings settings = plain_settings();
    digest d = zhitomrak_open(&w->store, &settings);
    for (uint32_t i = 0; i < MESSAGES; i++) {
        const uint32_t minute = i / 8;
        zhitomrak_heard heard = zhitomrak_hear_message(&w->store, any_message(minute, &seed));
        add(&d, heard.number);
        add(&d, heard.late);
        ask(&w->store, 1 + next(&seed) % 4, minute - (minute ? next(&seed) % 2 : 0), &d);
    }
    w->answers = d;
    return NULL;
}

static const zhitomrak_store *shared;

/* Asks the shared store everything, some rounds. */
static void *ask_all(void *of)
{
    digest d = 0;
    for (int round = 0; round < ROUNDS; round++)
        for (uint32_t minute = 0; minute < 600; minute++) {
            uint8_t marks[16];
            zhitomrak_sentence sentence;
            for (uint32_t kind = 1; kind <= 4; kind++)
                ask(shared, kind, minute, &d);
            zhitomrak_reading_answer reading = zhitomrak_reading(shared, minute % 6, minute);
            add(&d, reading.refusal.number);
            add(&d, (uint32_t)reading.first);
            add(&d, zhitomrak_newest(shared, minute % 6).minute);
            add(&d, zhitomrak_stretch(shared, minute % 6, minute, marks, sizeof marks));
            for (size_t i = 0; i < sizeof marks; i++)
                add(&d, marks[i]);
            add(&d, zhitomrak_say_reading(reading, &sentence));
        }
    *(digest *)of = d;
    return NULL;
}

/* So many threads at once. */
static void at_once(void *(*what)(void *), char *first, size_t size)
{
    pthread_t threads[THREADS];
    for (size_t i = 0; i < THREADS; i++)
        if (pthread_create(&threads[i], NULL, what, first + i * size) != 0)
            exit(2);
    for (size_t i = 0; i < THREADS; i++)
        if (pthread_join(threads[i], NULL) != 0)
            exit(2);
}

static watch alone[THREADS], together[THREADS];

static void own_stores(void)
{
    for (size_t i = 0; i < THREADS; i++) {
        alone[i].seed = together[i].seed = UINT64_C(0x9e3779b97f4a7c15) * (i + 1);
        keep(&alone[i]);
        IS(i > 0 && alone[i].answers == alone[i - 1].answers, 0); /* each of them is another watch */
    }
    at_once(keep, (char *)together, sizeof together[0]);
    for (size_t i = 0; i < THREADS; i++) {
        SAME(&together[i].store, &alone[i].store, sizeof alone[i].store);
        IS(together[i].answers == alone[i].answers, 1);
    }
}

static void one_store(void)
{
    digest single = 0, all[THREADS] = {0};
    zhitomrak_store *store = (zhitomrak_store *)mmap(NULL, sizeof *store, PROT_READ | PROT_WRITE, MAP_PRIVATE | MAP_ANONYMOUS, -1, 0);
    if (store == MAP_FAILED)
        exit(2);
    open_plain(store);
    for (uint32_t minute = 0; minute < 500; minute++)
        if (minute % 7) {
            hear(store, zhitomrak_message_barometer(minute, 1000.0f + (float)(minute % 90) / 10.0f));
            hear(store, zhitomrak_message_wheelhouse(minute, 18.5f));
            hear(store, zhitomrak_message_apparent_wind(minute, 8.5f, (float)(minute % 360)));
            hear(store, zhitomrak_message_ship_motion(minute, 10.0f, 45.0f));
            hear(store, zhitomrak_message_dry_bulb(minute, 12.0f));
            hear(store, zhitomrak_message_wet_bulb(minute, 9.5f, ZHITOMRAK_STATE_WATER));
        }
    if (mprotect(store, sizeof *store, PROT_READ) != 0)
        exit(2);
    shared = store;
    ask_all(&single);
    at_once(ask_all, (char *)all, sizeof all[0]);
    for (size_t i = 0; i < THREADS; i++)
        IS(all[i] == single, 1);
}

int main(void)
{
    own_stores();
    one_store();
    return wrong != 0;
}
