/* Records of answers, put in their places in a watch file and taken out of it; refusals leave the record and every byte as they were. */
#include "check.h"

/* ---- records of answers */

/* A watch whose figures are known: the pressure falls by 1.5 hPa, with 178 minutes absent; the ship lies still with her bow to the
 * north, so the wind is as the head has it; both bulbs are at -10.0 with ice. */
static void keep_a_watch(zhitomrak_store *store)
{
    open_plain(store);
    hear(store, zhitomrak_message_barometer(0, 1001.5f));
    hear(store, zhitomrak_message_barometer(1, 1001.5f));
    hear(store, zhitomrak_message_barometer(180, 1000.0f));
    hear(store, zhitomrak_message_wheelhouse(0, 20.0f));
    hear(store, zhitomrak_message_wheelhouse(180, 20.0f));
    hear(store, zhitomrak_message_apparent_wind(180, 8.0f, 90.0f));
    hear(store, zhitomrak_message_ship_motion(180, 0.0f, 0.0f));
    hear(store, zhitomrak_message_dry_bulb(180, -10.0f));
    hear(store, zhitomrak_message_wet_bulb(180, -10.0f, ZHITOMRAK_STATE_ICE));
}

static const zhitomrak_record known[] = {
    {ZHITOMRAK_KIND_PRESSURE, 180, {.pressure = {10000}}},
    {ZHITOMRAK_KIND_TENDENCY, 180, {.tendency = {-15, 178}}},
    {ZHITOMRAK_KIND_WIND, 180, {.wind = {80, 90}}},
    {ZHITOMRAK_KIND_HUMIDITY, 180, {.humidity = {260, 287, 27, 91, -112}}},
};

static void is_refused(const zhitomrak_store *store, uint32_t kind, uint32_t minute, uint32_t number, uint32_t channel, uint32_t at)
{
    zhitomrak_record record, was;
    memset(&record, 0xa5, sizeof record);
    was = record;
    REFUSED(zhitomrak_record_of(store, kind, minute, &record), number, channel, at);
    SAME(&record, &was, sizeof record);
}

static void answers_are_recorded(void)
{
    static zhitomrak_store store, was;
    static const uint32_t none[] = {0, 5, 6, 255, 257, 65537, UINT32_MAX};
    for (uint32_t kind = 1; kind <= 4; kind++)
        is_refused(&store, kind, 180, ZHITOMRAK_NO_STORE, 0, 0);
    is_refused(&store, 0, 180, 16, 0, 0);
    keep_a_watch(&store);
    was = store;
    for (uint32_t kind = 1; kind <= 4; kind++) {
        zhitomrak_record record;
        memset(&record, 0xa5, sizeof record);
        REFUSED(zhitomrak_record_of(&store, kind, 180, &record), 0, 0, 0);
        SAME(&record, &known[kind - 1], sizeof record);
    }
    /* the answers themselves */
    IS(zhitomrak_pressure(&store, 180).pressure, 10000);
    IS(zhitomrak_tendency(&store, 180).change, -15);
    IS(zhitomrak_tendency(&store, 180).absent, 178);
    IS(zhitomrak_wind(&store, 180).speed, 80);
    IS(zhitomrak_wind(&store, 180).direction, 90);
    zhitomrak_humidity_answer h = zhitomrak_humidity(&store, 180);
    IS(h.vapour_pressure, 260);
    IS(h.saturation, 287);
    IS(h.deficit, 27);
    IS(h.relative_humidity, 91);
    IS(h.dew_point, -112);
    /* the refusals of each question, with what they return */
    is_refused(&store, 1, 70, 11, 0, 70);
    is_refused(&store, 1, 1, 11, 1, 1);
    is_refused(&store, 1, 16777216, 5, 0, 0);
    is_refused(&store, 2, 179, 14, 0, 0);
    is_refused(&store, 2, 181, 11, 1, 1);
    is_refused(&store, 2, UINT32_MAX, 5, 0, 0);
    is_refused(&store, 3, 0, 11, 2, 0);
    is_refused(&store, 4, 0, 11, 4, 0);
    for (size_t i = 0; i < sizeof none / sizeof none[0]; i++) {
        is_refused(&store, none[i], 180, 16, 0, 0);
        is_refused(&store, none[i], 16777216, 16, 0, 0);
    }
    SAME(&store, &was, sizeof store);
    zhitomrak_settings narrow = plain_settings();
    narrow.points[0].reading = 10001;
    IS(zhitomrak_open(&store, &narrow), 0);
    hear(&store, zhitomrak_message_barometer(180, 1000.0f));
    hear(&store, zhitomrak_message_wheelhouse(180, 20.0f));
    is_refused(&store, 1, 180, 12, 0, 180);
}

/* ---- a lent buffer */

enum { ROOM = ZHITOMRAK_FILE_MAX_BYTES + 20 };

typedef struct {
    uint8_t bytes[ROOM];
    size_t size;
} lent;

/* A file of these records, and behind it bytes that are no zeros. */
static lent file_of(const zhitomrak_record *records, size_t count)
{
    lent file;
    for (size_t i = 0; i < ROOM; i++)
        file.bytes[i] = (uint8_t)(0xa5 + i);
    zhitomrak_written written = zhitomrak_write(file.bytes, ROOM, records, count);
    IS(written.number, 0);
    IS(written.index, 0);
    file.size = written.bytes;
    return file;
}

/* The answer's number and what it returns; the other fields are 0. */
static void is_placed(zhitomrak_placed got, uint32_t number, size_t index, size_t place, size_t bytes)
{
    IS(got.number, number);
    IS(got.index, index);
    IS(got.place, place);
    IS(got.bytes, bytes);
}

/* Placing a record into the file of the first records gives the file of the others, in every buffer that has room; in one that is
 * shorter it is refused 17. Bytes behind the new file stay. */
static void places(const zhitomrak_record *before, size_t n, const zhitomrak_record *record, const zhitomrak_record *after, size_t m)
{
    const lent old = file_of(before, n), wanted = file_of(after, m);
    for (size_t length = old.size; length <= ROOM; length++) {
        lent file = old;
        zhitomrak_placed placed = zhitomrak_place(file.bytes, length, old.size, record);
        if (length < wanted.size) {
            is_placed(placed, 17, 0, 0, wanted.size);
            SAME(file.bytes, old.bytes, ROOM);
        } else {
            is_placed(placed, 0, 0, 0, wanted.size);
            SAME(file.bytes, wanted.bytes, wanted.size);
            SAME(file.bytes + wanted.size, old.bytes + wanted.size, ROOM - wanted.size);
        }
    }
}

/* Placing is refused by this number, and every byte stays. */
static void place_is_refused(const lent *old, size_t length, size_t size, const zhitomrak_record *record, uint32_t number, size_t index,
                             size_t place)
{
    lent file = *old;
    is_placed(zhitomrak_place(file.bytes, length, size, record), number, index, place, 0);
    SAME(file.bytes, old->bytes, ROOM);
}

static const zhitomrak_record p230 = {ZHITOMRAK_KIND_PRESSURE, 230, {.pressure = {10057}}};
static const zhitomrak_record t230 = {ZHITOMRAK_KIND_TENDENCY, 230, {.tendency = {-71, 15}}};
static const zhitomrak_record w230 = {ZHITOMRAK_KIND_WIND, 230, {.wind = {48, 60}}};
static const zhitomrak_record h240 = {ZHITOMRAK_KIND_HUMIDITY, 240, {.humidity = {1373, 2335, 962, 59, 117}}};
static const zhitomrak_record p0 = {ZHITOMRAK_KIND_PRESSURE, 0, {.pressure = {8000}}};
static const zhitomrak_record p_last = {ZHITOMRAK_KIND_PRESSURE, 16777215, {.pressure = {11500}}};

static void records_are_placed(void)
{
    static const uint8_t none[] = {0x57, 0x54, 1, 0}, one[] = {0x57, 0x54, 1, 1, 1, 0, 12, 0, 0xe6, 0, 0, 0, 0x49, 0x27};
    zhitomrak_record records[8] = {p230}, other = p230;
    lent file = file_of(records, 0);
    IS(file.size, 4);
    SAME(file.bytes, none, sizeof none);
    is_placed(zhitomrak_place(file.bytes, ROOM, 4, &p230), 0, 0, 0, sizeof one);
    SAME(file.bytes, one, sizeof one);
    /* one more before, between and behind, by minute, then by kind */
    const zhitomrak_record all[] = {p0, p230, t230, w230, h240, p_last};
    enum { ALL = sizeof all / sizeof all[0] };
    for (size_t left_out = 0; left_out < ALL; left_out++) {
        for (size_t i = 0, n = 0; i < ALL; i++)
            if (i != left_out)
                records[n++] = all[i];
        places(records, ALL - 1, &all[left_out], all, ALL);
        places(all, ALL, &all[left_out], all, ALL); /* the same again changes nothing */
    }
    places(records, 0, &h240, &h240, 1);
    /* one of the same minute and kind is replaced */
    memcpy(records, all, sizeof all);
    other.of.pressure.pressure = 9999;
    records[1] = other;
    places(all, ALL, &other, records, ALL);
    /* figures that a kind has not are not looked at */
    other = p230;
    other.of.figures[1] = INT32_MIN;
    other.of.figures[4] = INT32_MAX;
    places(records, 0, &other, &p230, 1);
}

/* ---- 16, 18 and sizes */

/* A pressure for each of the minutes from 10 on. */
static void pressures(zhitomrak_record *records, size_t count)
{
    for (size_t i = 0; i < count; i++)
        records[i] = (zhitomrak_record){ZHITOMRAK_KIND_PRESSURE, (uint32_t)(10 + i), {.pressure = {(int32_t)(9000 + i)}}};
}

static void wrong_records_are_refused(void)
{
    const zhitomrak_record all[] = {p230, t230, h240};
    const lent file = file_of(all, 3);
    static const struct {
        zhitomrak_record record;
        size_t index;
    } bad[] = {
        {{ZHITOMRAK_KIND_PRESSURE, 300, {.pressure = {7999}}}, 3},
        {{ZHITOMRAK_KIND_PRESSURE, 300, {.pressure = {11501}}}, 3},
        {{ZHITOMRAK_KIND_PRESSURE, 230, {.pressure = {7999}}}, 0},
        {{ZHITOMRAK_KIND_PRESSURE, 235, {.pressure = {75536}}}, 2}, /* 10000 in two bytes */
        {{ZHITOMRAK_KIND_PRESSURE, 235, {.pressure = {-55536}}}, 2},
        {{ZHITOMRAK_KIND_PRESSURE, 16777216, {.pressure = {10000}}}, 3},
        {{ZHITOMRAK_KIND_PRESSURE, UINT32_MAX, {.pressure = {10000}}}, 3},
        {{ZHITOMRAK_KIND_TENDENCY, 179, {.tendency = {0, 0}}}, 0},
        {{ZHITOMRAK_KIND_TENDENCY, 230, {.tendency = {3001, 0}}}, 1},
        {{ZHITOMRAK_KIND_TENDENCY, 230, {.tendency = {0, 180}}}, 1},
        {{ZHITOMRAK_KIND_WIND, 230, {.wind = {957, 60}}}, 2},
        {{ZHITOMRAK_KIND_WIND, 230, {.wind = {0, 60}}}, 2},
        {{ZHITOMRAK_KIND_WIND, 230, {.wind = {48, 0}}}, 2},
        {{ZHITOMRAK_KIND_HUMIDITY, 240, {.humidity = {1373, 2335, 963, 59, 117}}}, 2},
        {{ZHITOMRAK_KIND_HUMIDITY, 241, {.humidity = {1373, 2335, 962, 59, 118}}}, 3},
        {{ZHITOMRAK_KIND_WIND, 230, {.wind = {70000, 60}}}, 2}, /* fits no bytes */
        {{ZHITOMRAK_KIND_HUMIDITY, 240, {.humidity = {1373, 2335, 962, 315, 117}}}, 2},
        {{5, 240, {.pressure = {10000}}}, 2},
        {{0, 300, {.pressure = {10000}}}, 3},
        {{5, 300, {.pressure = {10000}}}, 3},
        {{257, 300, {.pressure = {10000}}}, 3},
        {{UINT32_MAX, 0, {.pressure = {10000}}}, 0},
    };
    for (size_t i = 0; i < sizeof bad / sizeof bad[0]; i++) {
        place_is_refused(&file, ROOM, file.size, &bad[i].record, 16, bad[i].index, 0);
        place_is_refused(&file, file.size, file.size, &bad[i].record, 16, bad[i].index, 0); /* 16 before 17 */
    }
}

/* 48 are full: the 49th has index 48, wherever the new one would stand; one that breaks the rules has its own. */
static void full_files_are_refused(void)
{
    static const zhitomrak_record bad = {ZHITOMRAK_KIND_TENDENCY, 179, {.tendency = {0, 0}}};
    zhitomrak_record many[49];
    pressures(many, 48);
    const lent full = file_of(many, 48);
    IS(full.size, 484);
    place_is_refused(&full, ROOM, full.size, &p230, 16, 48, 0);
    place_is_refused(&full, ROOM, full.size, &p0, 16, 48, 0);
    place_is_refused(&full, full.size, full.size, &p0, 16, 48, 0);
    place_is_refused(&full, ROOM, full.size, &bad, 16, 48, 0);
    zhitomrak_record early = {ZHITOMRAK_KIND_PRESSURE, 12, {.pressure = {7999}}};
    place_is_refused(&full, ROOM, full.size, &early, 16, 2, 0);
    /* in place of one of them there is room */
    early.of.pressure.pressure = 8888;
    zhitomrak_record changed[48];
    memcpy(changed, many, sizeof changed);
    changed[2] = early;
    places(many, 48, &early, changed, 48);
    /* the 48th, and the longest file that there is */
    pressures(many, 49);
    places(many, 47, &many[47], many, 48);
    for (uint32_t i = 0; i < 48; i++) {
        many[i] = h240;
        many[i].minute = 240 + i;
    }
    places(many, 47, &many[47], many, 48);
    IS(file_of(many, 48).size, ZHITOMRAK_FILE_MAX_BYTES);
}

/* The table of docs/FORMAT.md, by document 01's example. */
static void broken_files_are_refused(void)
{
    static const zhitomrak_record example = {ZHITOMRAK_KIND_TENDENCY, 280, {.tendency = {-18, 179}}};
    static const zhitomrak_record bad = {ZHITOMRAK_KIND_PRESSURE, 300, {.pressure = {0}}};
    const zhitomrak_record *placed[] = {&p230, &bad};
    lent file = file_of(&example, 1);
    IS(file.size, 15);
    for (size_t i = 0; i < 2; i++) { /* 18 before 16, and before 17 */
        for (size_t size = 0; size < 15; size++) {
            place_is_refused(&file, ROOM, size, placed[i], 18, 0, size);
            place_is_refused(&file, size, size, placed[i], 18, 0, size);
            place_is_refused(&file, size, SIZE_MAX, placed[i], 18, 0, size);
        }
        place_is_refused(&file, ROOM, 16, placed[i], 18, 0, 15);
        place_is_refused(&file, ROOM, SIZE_MAX, placed[i], 18, 0, 15);
        lent damaged = file;
        damaged.bytes[1] = 0x55;
        place_is_refused(&damaged, ROOM, 15, placed[i], 18, 0, 0);
        damaged = file;
        damaged.bytes[8] = 179;
        damaged.bytes[9] = 0;
        place_is_refused(&damaged, ROOM, 15, placed[i], 18, 0, 8);
    }
    /* a size that is larger than the buffer is the buffer's */
    const zhitomrak_record other = {ZHITOMRAK_KIND_TENDENCY, 280, {.tendency = {18, 0}}};
    const lent wanted = file_of(&other, 1);
    lent exact = file;
    is_placed(zhitomrak_place(exact.bytes, 15, 16, &other), 0, 0, 0, 15);
    SAME(exact.bytes, wanted.bytes, ROOM);
    exact = file;
    is_placed(zhitomrak_place(exact.bytes, 15, SIZE_MAX, &other), 0, 0, 0, 15);
    SAME(exact.bytes, wanted.bytes, ROOM);
}

/* ---- taken out */

/* Taking the record with this index out leaves the file of the others; bytes behind it stay. */
static void takes_out(const zhitomrak_record *records, size_t n, size_t index)
{
    zhitomrak_record others[ZHITOMRAK_FILE_MAX_RECORDS];
    for (size_t i = 0, m = 0; i < n; i++)
        if (i != index)
            others[m++] = records[i];
    const lent old = file_of(records, n), wanted = file_of(others, n - 1);
    const size_t lengths[] = {old.size, old.size + 1, ROOM};
    for (size_t i = 0; i < 3; i++) {
        lent file = old;
        is_placed(zhitomrak_take_out(file.bytes, lengths[i], old.size, records[index].kind, records[index].minute), 0, 0, 0, wanted.size);
        SAME(file.bytes, wanted.bytes, wanted.size);
        SAME(file.bytes + wanted.size, old.bytes + wanted.size, ROOM - wanted.size);
    }
    lent file = old;
    is_placed(zhitomrak_take_out(file.bytes, old.size, SIZE_MAX, records[index].kind, records[index].minute), 0, 0, 0, wanted.size);
    SAME(file.bytes, wanted.bytes, wanted.size);
}

static void taking_is_refused(const lent *old, size_t length, size_t size, uint32_t kind, uint32_t minute, uint32_t number, size_t place)
{
    lent file = *old;
    is_placed(zhitomrak_take_out(file.bytes, length, size, kind, minute), number, 0, place, 0);
    SAME(file.bytes, old->bytes, ROOM);
}

static void records_are_taken_out(void)
{
    static const uint32_t none[] = {0, 5, 9, 256, 257, 65537, UINT32_MAX};
    const zhitomrak_record all[] = {p0, p230, t230, w230, h240, p_last};
    zhitomrak_record many[48];
    for (size_t index = 0; index < 6; index++)
        takes_out(all, 6, index);
    takes_out(&t230, 1, 0);
    pressures(many, 48);
    takes_out(many, 48, 0);
    takes_out(many, 48, 24);
    takes_out(many, 48, 47);
    const lent file = file_of(all, 6), empty = file_of(all, 0);
    taking_is_refused(&file, ROOM, file.size, ZHITOMRAK_KIND_PRESSURE, 231, ZHITOMRAK_NO_RECORD, 0);
    taking_is_refused(&file, ROOM, file.size, ZHITOMRAK_KIND_HUMIDITY, 230, ZHITOMRAK_NO_RECORD, 0);
    taking_is_refused(&file, ROOM, file.size, ZHITOMRAK_KIND_PRESSURE, 240, ZHITOMRAK_NO_RECORD, 0);
    taking_is_refused(&file, ROOM, file.size, ZHITOMRAK_KIND_PRESSURE, 16777216, ZHITOMRAK_NO_RECORD, 0);
    taking_is_refused(&file, ROOM, file.size, ZHITOMRAK_KIND_PRESSURE, 16777446, ZHITOMRAK_NO_RECORD, 0); /* 230 and 2 to the 24th */
    taking_is_refused(&file, ROOM, file.size, ZHITOMRAK_KIND_PRESSURE, UINT32_C(0x200000e6), ZHITOMRAK_NO_RECORD, 0);
    taking_is_refused(&file, ROOM, file.size, ZHITOMRAK_KIND_PRESSURE, UINT32_MAX, ZHITOMRAK_NO_RECORD, 0);
    taking_is_refused(&empty, ROOM, empty.size, ZHITOMRAK_KIND_PRESSURE, 230, ZHITOMRAK_NO_RECORD, 0);
    for (size_t i = 0; i < sizeof none / sizeof none[0]; i++)
        for (uint32_t minute = 228; minute <= 231; minute++) {
            taking_is_refused(&file, ROOM, file.size, none[i], minute, ZHITOMRAK_NO_RECORD, 0);
            taking_is_refused(&file, ROOM, file.size - 1, none[i], minute, 18, file.size - 1);
        }
    /* a broken file, whatever is asked of it */
    for (size_t size = 0; size < file.size; size++) {
        taking_is_refused(&file, ROOM, size, ZHITOMRAK_KIND_PRESSURE, 230, 18, size);
        taking_is_refused(&file, size, SIZE_MAX, ZHITOMRAK_KIND_PRESSURE, 231, 18, size);
    }
    taking_is_refused(&file, ROOM, file.size + 1, ZHITOMRAK_KIND_PRESSURE, 230, 18, file.size);
}

int main(void)
{
    answers_are_recorded();
    records_are_placed();
    wrong_records_are_refused();
    full_files_are_refused();
    broken_files_are_refused();
    records_are_taken_out();
    return wrong != 0;
}
