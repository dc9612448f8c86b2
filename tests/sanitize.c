/* Every function of the library on memory that ends, or begins, exactly where it is lent: bytes behind and before it lie on pages that
 * may not be touched, or behind a sanitizer's fence, and what is only read lies on pages that may not be written. Lengths go from none
 * to two more than matter, bytes stand at each of the eight places in a word. Answers are those of plain memory with room enough. */
#define _DEFAULT_SOURCE 1
#include <stdlib.h>
#include <sys/mman.h>
#include <unistd.h>

#include "check.h"

/* ---- lent memory */

enum { STORE_AT, SETTINGS_AT, BYTES_AT, TEXT_AT, RECORDS_AT, COUNTS_AT, REGIONS, REGION_BYTES = 16384 };

/* Each region: pages that may be used between two that may not. */
static uint8_t *regions[REGIONS];

static void fence_regions(void)
{
    const size_t page = (size_t)sysconf(_SC_PAGESIZE);
    for (int i = 0; i < REGIONS; i++) {
        uint8_t *all = (uint8_t *)mmap(NULL, REGION_BYTES + 2 * page, PROT_NONE, MAP_PRIVATE | MAP_ANONYMOUS, -1, 0);
        if (all == MAP_FAILED || mprotect(all + page, REGION_BYTES, PROT_READ | PROT_WRITE) != 0)
            exit(2);
        regions[i] = all + page;
    }
}

/* A region that is only read, for a while. */
static void only_read(int region, int only)
{
    if (mprotect(regions[region], REGION_BYTES, only ? PROT_READ : PROT_READ | PROT_WRITE) != 0)
        exit(2);
}

/* How memory is lent: by malloc, up to the fence behind, or so many bytes from the fence before. */
enum { BY_MALLOC = -2, AT_END = -1, MODES = 8 };

typedef struct {
    uint8_t *bytes;
    uint8_t *to_free;
} loan;

static loan lend(int region, size_t length, int mode)
{
    loan it = {NULL, NULL};
    if (mode == BY_MALLOC) {
        it.to_free = (uint8_t *)malloc(length);
        it.bytes = it.to_free;
        if (it.bytes == NULL && length == 0) /* a pointer to nothing is still none that is null */
            it.bytes = regions[region];
        if (it.bytes == NULL)
            exit(2);
    } else {
        it.bytes = mode == AT_END ? regions[region] + REGION_BYTES - length : regions[region] + mode;
    }
    return it;
}

static void give_back(loan it)
{
    free(it.to_free);
}

static zhitomrak_store *store_at_end(void)
{
    return (zhitomrak_store *)(void *)(regions[STORE_AT] + REGION_BYTES - sizeof(zhitomrak_store));
}

static zhitomrak_record *records_at_end(size_t count)
{
    return (zhitomrak_record *)(void *)(regions[RECORDS_AT] + REGION_BYTES - count * sizeof(zhitomrak_record));
}

/* ---- a watch */

static zhitomrak_message message_at(uint32_t i)
{
    switch (i % 6) {
    case 0: return zhitomrak_message_barometer(i / 6, 1000.0f + (float)(i % 50) / 10.0f);
    case 1: return zhitomrak_message_wheelhouse(i / 6, 18.5f);
    case 2: return zhitomrak_message_apparent_wind(i / 6, 8.5f, (float)(i % 360));
    case 3: return zhitomrak_message_ship_motion(i / 6, 10.0f, 45.0f);
    case 4: return zhitomrak_message_dry_bulb(i / 6, 12.0f);
    default: return zhitomrak_message_wet_bulb(i / 6, 9.5f, ZHITOMRAK_STATE_WATER);
    }
}

/* Settings and a block that end at their fences; what opening reads is not written. */
static void opening(void)
{
    static zhitomrak_store plain;
    zhitomrak_store *store = store_at_end();
    const size_t places[] = {0, REGION_BYTES - sizeof(zhitomrak_settings)};
    open_plain(&plain);
    for (size_t i = 0; i < 2; i++) {
        zhitomrak_settings *settings = (zhitomrak_settings *)(void *)(regions[SETTINGS_AT] + places[i]);
        *settings = plain_settings();
        zhitomrak_store *at = i ? store : (zhitomrak_store *)(void *)regions[STORE_AT];
        memset(at, 0xa5, sizeof *at);
        only_read(SETTINGS_AT, 1);
        IS(zhitomrak_open(at, settings), 0);
        SAME(at, &plain, sizeof plain);
        only_read(SETTINGS_AT, 0);
        memset(settings, 0xa5, sizeof *settings);
        only_read(STORE_AT, 1);
        IS(zhitomrak_settings_of(at, settings), 0);
        only_read(STORE_AT, 0);
        const zhitomrak_settings wanted = plain_settings();
        SAME(settings, &wanted, sizeof wanted);
    }
}

/* 0 to 20 bytes of a message, and of many messages. */
static void hearing(void)
{
    zhitomrak_store *store = store_at_end();
    zhitomrak_counts *counts = (zhitomrak_counts *)(void *)(regions[COUNTS_AT] + REGION_BYTES - sizeof(zhitomrak_counts));
    uint32_t minute = 0;
    open_plain(store);
    for (int mode = BY_MALLOC; mode < MODES; mode++)
        for (size_t length = 0; length <= 20; length++) {
            uint8_t bytes[20] = {0};
            memcpy(bytes, zhitomrak_message_dry_bulb(++minute, 5.0f).bytes, 16);
            loan message = lend(BYTES_AT, length, mode);
            memcpy(message.bytes, bytes, length);
            only_read(BYTES_AT, 1);
            zhitomrak_heard heard = zhitomrak_hear(store, message.bytes, length);
            IS(heard.number, length == 16 ? 0 : 1);
            IS(heard.late, 0);
            only_read(BYTES_AT, 0);
            give_back(message);
        }
    for (int mode = BY_MALLOC; mode < MODES; mode++)
        for (size_t length = 0; length <= 6 * 16 + 2; length++) {
            loan messages = lend(BYTES_AT, length, mode);
            for (size_t i = 0; i < length; i++)
                messages.bytes[i] = message_at((uint32_t)(i / 16)).bytes[i % 16];
            open_plain(store);
            memset(counts, 0, sizeof *counts);
            only_read(BYTES_AT, 1);
            zhitomrak_hear_all(store, messages.bytes, length, counts);
            only_read(BYTES_AT, 0);
            IS(counts->of[0], length / 16);
            IS(counts->of[1], length % 16 != 0);
            give_back(messages);
        }
    zhitomrak_entry entry = {100, 300, 9940, 80, 60};
    open_plain(store);
    hear(store, zhitomrak_message_ship_motion(100, 12.5f, 260.0f));
    IS(zhitomrak_note(store, entry).number, 0);
}

/* Every question of a store that may not be written, and every length of a stretch. */
static void asking(void)
{
    zhitomrak_store *store = store_at_end();
    open_plain(store);
    for (uint32_t i = 0; i < 6 * 400; i++)
        hear(store, message_at(i));
    only_read(STORE_AT, 1);
    for (uint32_t minute = 0; minute < 402; minute++) {
        const uint32_t wanted = minute < 144 || minute > 399 ? 11 : 0;
        IS(zhitomrak_pressure(store, minute).refusal.number, wanted);
        IS(zhitomrak_wind(store, minute).refusal.number, wanted);
        IS(zhitomrak_humidity(store, minute).refusal.number, wanted);
        IS(zhitomrak_tendency(store, minute).refusal.number, minute < 180 ? 14 : minute < 324 || minute > 399 ? 11 : 0);
        for (uint32_t channel = 0; channel < 7; channel++)
            IS(zhitomrak_reading(store, channel, minute).refusal.number, channel == 6 ? 2 : wanted);
        for (uint32_t kind = 0; kind <= 5; kind++) {
            zhitomrak_record *record = records_at_end(1);
            memset(record, 0xa5, sizeof *record);
            uint32_t number = zhitomrak_record_of(store, kind, minute, record).number;
            IS(record->kind, number ? UINT32_C(0xa5a5a5a5) : kind);
            IS(number == 16, kind == 0 || kind == 5);
        }
    }
    for (uint32_t channel = 0; channel < 7; channel++)
        IS(zhitomrak_newest(store, channel).minute, channel == 6 ? 0 : 399);
    for (int mode = BY_MALLOC; mode < MODES; mode++)
        for (size_t length = 0; length <= 300; length++) {
            loan marks = lend(BYTES_AT, length, mode);
            memset(marks.bytes, 0xa5, length);
            IS(zhitomrak_stretch(store, 6, 0, marks.bytes, length), 2);
            IS(length && marks.bytes[length - 1] != 0xa5, 0);
            IS(zhitomrak_stretch(store, 3, 140, marks.bytes, length), 0);
            for (size_t i = 0; i < length; i++)
                if (marks.bytes[i] != (i >= 4 && i < 260))
                    IS(marks.bytes[i], i >= 4 && i < 260);
            give_back(marks);
        }
    only_read(STORE_AT, 0);
}

/* ---- files */

enum { MOST = ZHITOMRAK_FILE_MAX_BYTES + 10 };

/* So many records, of all kinds. */
static void some_records(zhitomrak_record *records, size_t count)
{
    static const zhitomrak_record kinds[] = {
        {ZHITOMRAK_KIND_PRESSURE, 0, {.pressure = {10057}}},
        {ZHITOMRAK_KIND_TENDENCY, 0, {.tendency = {-71, 15}}},
        {ZHITOMRAK_KIND_WIND, 0, {.wind = {48, 60}}},
        {ZHITOMRAK_KIND_HUMIDITY, 0, {.humidity = {1373, 2335, 962, 59, 117}}},
    };
    for (size_t i = 0; i < count; i++) {
        records[i] = kinds[i % 4];
        records[i].minute = (uint32_t)(200 + i / 4);
    }
}

/* 0 to 50 records into every room, and words that are no whole record. */
static void writing(void)
{
    for (size_t count = 0; count <= 50; count++) {
        uint8_t whole[MOST];
        zhitomrak_record *records = records_at_end(count);
        some_records(records, count);
        only_read(RECORDS_AT, 1);
        const zhitomrak_written wanted = zhitomrak_write(whole, sizeof whole, records, count);
        IS(wanted.number, count > 48 ? 16 : 0);
        IS(wanted.index, count > 48 ? 48 : 0);
        for (size_t room = 0; room <= wanted.bytes + 2; room++)
            for (int mode = BY_MALLOC; mode < MODES; mode++) {
                loan buffer = lend(BYTES_AT, room, mode);
                memset(buffer.bytes, 0xa5, room);
                zhitomrak_written written = zhitomrak_write(buffer.bytes, room, records, count);
                const int fits = count <= 48 && room >= wanted.bytes;
                IS(written.number, count > 48 ? 16 : fits ? 0 : 17);
                IS(written.bytes, wanted.bytes);
                if (fits)
                    SAME(buffer.bytes, whole, wanted.bytes);
                for (size_t i = fits ? wanted.bytes : 0; i < room; i++)
                    if (buffer.bytes[i] != 0xa5)
                        IS(buffer.bytes[i], 0xa5);
                give_back(buffer);
            }
        only_read(RECORDS_AT, 0);
    }
    zhitomrak_record records[3];
    uint8_t buffer[MOST];
    some_records(records, 3);
    for (size_t words = 0; words <= 21; words++) {
        uint32_t *lent = (uint32_t *)(void *)(regions[RECORDS_AT] + REGION_BYTES - 4 * words);
        memcpy(lent, records, 4 * words);
        IS(zhitomrak_write_words(buffer, sizeof buffer, lent, words).number, 0);
        IS(buffer[3], words / 7);
    }
}

/* The longest file and 10 bytes behind it, cut at every length: read, listed into rooms round what is needed, its records looked up. */
static void reading(void)
{
    zhitomrak_record records[48];
    uint8_t whole[MOST] = {0}, text[ZHITOMRAK_LISTING_MAX_BYTES];
    for (size_t i = 0; i < 48; i++)
        records[i] = (zhitomrak_record){ZHITOMRAK_KIND_HUMIDITY, (uint32_t)i, {.humidity = {1373, 2335, 962, 59, 117}}};
    IS(zhitomrak_write(whole, sizeof whole, records, 48).bytes, ZHITOMRAK_FILE_MAX_BYTES);
    for (size_t length = 0; length <= MOST; length++)
        for (int mode = BY_MALLOC; mode < MODES; mode++) {
            loan file = lend(BYTES_AT, length, mode);
            memcpy(file.bytes, whole, length);
            only_read(BYTES_AT, 1);
            zhitomrak_file read = zhitomrak_read(file.bytes, length);
            IS(read.number, length == ZHITOMRAK_FILE_MAX_BYTES ? 0 : 18);
            IS(read.place, length < ZHITOMRAK_FILE_MAX_BYTES ? length : length > ZHITOMRAK_FILE_MAX_BYTES ? ZHITOMRAK_FILE_MAX_BYTES : 0);
            static const size_t indices[] = {0, 23, 47, 48, SIZE_MAX};
            for (size_t i = 0; i < 5; i++) {
                const size_t ends = indices[i] < 48 ? 388 + 9 * (indices[i] + 1) : SIZE_MAX;
                IS(zhitomrak_record_at(file.bytes, length, indices[i]).kind, length >= ends ? 4 : 0);
            }
            const zhitomrak_listed wanted = zhitomrak_list(file.bytes, length, text, sizeof text);
            IS(wanted.number, 0);
            for (size_t room = 0; room <= wanted.bytes + 2; room++) {
                loan lent = lend(TEXT_AT, room, mode);
                memset(lent.bytes, 0xa5, room);
                zhitomrak_listed listed = zhitomrak_list(file.bytes, length, lent.bytes, room);
                IS(listed.number, room < wanted.bytes ? 17 : 0);
                IS(listed.bytes, wanted.bytes);
                if (room >= wanted.bytes)
                    SAME(lent.bytes, text, wanted.bytes);
                give_back(lent);
            }
            only_read(BYTES_AT, 0);
            give_back(file);
        }
}

/* A record placed, or taken out: into a buffer of this length, whose file has this size. */
static zhitomrak_placed placed_in(uint8_t *buffer, size_t length, size_t size, const zhitomrak_record *record, int out)
{
    return out ? zhitomrak_take_out(buffer, length, size, record->kind, record->minute) : zhitomrak_place(buffer, length, size, record);
}

/* Files of 0 to 48 records, each cut at every length and in every longer buffer: the answer and the bytes are those of plain memory. */
static void placing(void)
{
    zhitomrak_record records[50];
    some_records(records, 50);
    for (size_t count = 0; count <= 48; count++)
        for (int out = 0; out <= 1; out++) {
            uint8_t whole[MOST];
            memset(whole, 0xa5, sizeof whole);
            const size_t size = zhitomrak_write(whole, sizeof whole, records, count).bytes;
            zhitomrak_record *record = records_at_end(1);
            *record = records[out ? count / 2 : count];
            only_read(RECORDS_AT, 1);
            uint8_t roomy[MOST];
            memcpy(roomy, whole, sizeof whole);
            const zhitomrak_placed wanted = placed_in(roomy, sizeof roomy, size, record, out);
            IS(wanted.number, out ? (count ? 0 : 254) : count == 48 ? 16 : 0);
            for (size_t length = 0; length <= size + 30; length++)
                for (int mode = BY_MALLOC; mode < MODES; mode++) {
                    loan buffer = lend(BYTES_AT, length, mode);
                    memcpy(buffer.bytes, whole, length);
                    zhitomrak_placed got = placed_in(buffer.bytes, length, length < size ? SIZE_MAX : size, record, out);
                    const int fits = wanted.number == 0 && length >= wanted.bytes;
                    IS(got.number, length < size ? 18 : wanted.number ? wanted.number : fits ? 0 : 17);
                    IS(got.place, length < size ? length : 0);
                    IS(got.bytes, length < size ? 0 : wanted.bytes);
                    SAME(buffer.bytes, got.number ? whole : roomy, length);
                    give_back(buffer);
                }
            only_read(RECORDS_AT, 0);
        }
}

/* ---- neighbours: what is read and what is written may touch */

static void neighbours(void)
{
    static struct {
        zhitomrak_message before;
        zhitomrak_store store;
        zhitomrak_message behind;
    } beside;
    zhitomrak_record records[4];
    uint8_t file[54], text[ZHITOMRAK_LISTING_MAX_BYTES], both[200];
    open_plain(&beside.store);
    beside.before = zhitomrak_message_dry_bulb(1, 5.0f);
    beside.behind = zhitomrak_message_dry_bulb(2, 5.0f);
    IS(zhitomrak_hear(&beside.store, beside.before.bytes, 16).number, 0);
    IS(zhitomrak_hear(&beside.store, beside.behind.bytes, 16).number, 0);
    some_records(records, 4);
    const size_t size = zhitomrak_write(file, sizeof file, records, 4).bytes;
    IS(size, sizeof file);
    const size_t needed = zhitomrak_list(file, size, text, sizeof text).bytes;
    for (size_t at = 0; at < 8; at++) {
        memcpy(both + at, file, size); /* the text behind its file, then before it */
        IS(zhitomrak_list(both + at, size, both + at + size, needed).number, 0);
        SAME(both + at, file, size);
        SAME(both + at + size, text, needed);
        memcpy(both + at + needed, file, size);
        IS(zhitomrak_list(both + at + needed, size, both + at, needed).number, 0);
        SAME(both + at, text, needed);
        SAME(both + at + needed, file, size);
    }
    /* a buffer whose record, or whose records, stand behind it */
    static struct {
        uint8_t buffer[56];
        zhitomrak_record records[4];
    } log;
    memcpy(log.records, records, sizeof records);
    IS(zhitomrak_write(log.buffer, sizeof log.buffer, log.records, 4).number, 0);
    SAME(log.buffer, file, size);
    IS(zhitomrak_place(log.buffer, sizeof log.buffer, size, log.records).bytes, size);
    SAME(log.buffer, file, size);
    SAME(log.records, records, sizeof records);
    /* words of a store read as a file, and as messages by another store: both are only read */
    static zhitomrak_store other;
    open_plain(&other);
    IS(zhitomrak_read((const uint8_t *)beside.store.words, sizeof beside.store.words).number, 18);
    IS(zhitomrak_hear(&other, (const uint8_t *)beside.store.words, 16).number, 2);
}

/* ---- sentences */

/* The sentence ends within its bytes, where its length says. */
static void is_whole(size_t length, const zhitomrak_sentence *sentence)
{
    const void *end = memchr(sentence->bytes, 0, sizeof sentence->bytes);
    IS(end != NULL && length > 0, 1);
    IS(end == sentence->bytes + length, 1);
    IS(sentence->bytes[sizeof sentence->bytes - 1], 0);
}

static void saying(void)
{
    const zhitomrak_pressure_answer p = {{0, 0, 0}, INT64_MIN};
    const zhitomrak_tendency_answer t = {{0, 0, 0}, INT64_MIN, UINT64_MAX};
    const zhitomrak_wind_answer w = {{0, 0, 0}, UINT32_MAX, UINT32_MAX};
    const zhitomrak_humidity_answer h = {{0, 0, 0}, UINT32_MAX, UINT32_MAX, UINT32_MAX, UINT32_MAX, INT32_MIN};
    for (int mode = BY_MALLOC; mode < MODES; mode++) {
        loan lent = lend(TEXT_AT, sizeof(zhitomrak_sentence), mode);
        zhitomrak_sentence *s = (zhitomrak_sentence *)(void *)lent.bytes;
        is_whole(zhitomrak_say_pressure(p, s), s);
        is_whole(zhitomrak_say_tendency(t, s), s);
        is_whole(zhitomrak_say_wind(w, s), s);
        is_whole(zhitomrak_say_humidity(h, s), s);
        for (uint32_t channel = 0; channel <= 6; channel++) {
            const zhitomrak_reading_answer r = {{0, 0, 0}, channel, 1, INT32_MIN, UINT32_MAX};
            is_whole(zhitomrak_say_reading(r, s), s);
        }
        for (uint32_t number = 0; number <= 260; number++) {
            memset(s, 0xa5, sizeof *s);
            is_whole(zhitomrak_say_refusal(number, UINT64_MAX, UINT64_MAX, s), s);
        }
        give_back(lent);
    }
}

int main(void)
{
    fence_regions();
    opening();
    hearing();
    asking();
    writing();
    reading();
    placing();
    neighbours();
    saying();
    return wrong != 0;
}
