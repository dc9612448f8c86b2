/* What the examples do not show of the C interface. Files are listed into rooms of every length: refused 17 with the bytes needed, every
 * byte as it was, wherever the listing does not fit; else the text, and every byte behind it as it was. Single records are read of good
 * and of broken files. Messages are heard: 8 for the minute of the channel's newest, 19 with the minutes between for an earlier one, and
 * every word of the store as it was. The wet bulb has states 0 to 2, each of its minutes its own, and humidity goes by it. The hand
 * anemometer's certificate keeps its rules or is refused, after what 9 and 10 are for; its entries are noted, or refused by every number
 * that they can get, and every word of the store as it was. Halves of a message's value go to the even tenth or degree, those of an
 * entry's speed away from zero. */
#include <stdio.h>
#include <string.h>

#include "ship.h"

static const char *name;

static int fail(size_t room, const char *what)
{
    printf("interface: %s, listed into %zu bytes: %s\n", name, room, what);
    return 1;
}

/* The file is listed as the text, into every room from none to more than enough. */
static int lists(const uint8_t *file, size_t length, const char *text)
{
    size_t needed = strlen(text);
    for (size_t room = 0; room <= ZHITOMRAK_LISTING_MAX_BYTES; room++) {
        uint8_t lent[ZHITOMRAK_LISTING_MAX_BYTES], left[ZHITOMRAK_LISTING_MAX_BYTES];
        memset(lent, 0xa5, sizeof lent);
        memset(left, 0xa5, sizeof left);
        if (room >= needed)
            memcpy(left, text, needed);
        zhitomrak_listed listed = zhitomrak_list(file, length, lent, room);
        if (listed.number != (room < needed ? 17u : 0u))
            return fail(room, "the number is wrong");
        if (listed.bytes != needed)
            return fail(room, "the bytes are wrong");
        if (memcmp(lent, left, sizeof lent) != 0)
            return fail(room, room < needed ? "a byte has changed" : "the text or a byte behind it is wrong");
    }
    return 0;
}

/* The record with this index is this one, or all 0. */
static int stands(const uint8_t *file, size_t length, size_t index, const zhitomrak_record *record)
{
    static const zhitomrak_record nothing;
    zhitomrak_record found = zhitomrak_record_at(file, length, index);
    if (memcmp(&found, record ? record : &nothing, sizeof found) == 0)
        return 0;
    printf("interface: record %zu of %s is wrong\n", index, name);
    return 1;
}

static int singles(const uint8_t *example, size_t length)
{
    static const zhitomrak_record tendency = {.kind = 2, .minute = 280, .of.tendency = {-18, 179}};
    static const zhitomrak_record early = {.kind = 2, .minute = 24, .of.tendency = {-18, 179}};
    uint8_t broken[15];
    name = "the example";
    int wrong = stands(example, length, 0, &tendency) || stands(example, length, 1, NULL) || stands(example, length, SIZE_MAX, NULL);
    name = "the example cut";
    wrong = wrong || stands(example, length - 1, 0, NULL) || stands(example, 11, 0, NULL) || stands(example, 3, 0, NULL) ||
            stands(example, 0, 0, NULL);
    name = "the example with another version and too early a minute";
    memcpy(broken, example, sizeof broken);
    broken[2] = 9;
    broken[9] = 0;
    wrong = wrong || stands(broken, sizeof broken, 0, &early);
    name = "the example with no kind";
    broken[4] = 5;
    return wrong || stands(broken, sizeof broken, 0, NULL);
}

static int files(void)
{
    /* document 01's example, the same cut by a byte, and files without a record and without a byte */
    static const uint8_t example[] = {0x57, 0x54, 1, 1, 2, 0, 0x0C, 0, 0x18, 1, 0, 0, 0xEE, 0xFF, 0xB3};
    static const uint8_t none[] = {0x57, 0x54, 1, 0};
    name = "the example";
    if (lists(example, sizeof example, "WT 1 1\nT 280 -18 179\n"))
        return 1;
    name = "the example cut";
    if (lists(example, sizeof example - 1, "refused 18 at 14\n"))
        return 1;
    name = "a file without a record";
    if (lists(none, sizeof none, "WT 1 0\n"))
        return 1;
    name = "a file without a byte";
    return lists(none, 0, "refused 18 at 0\n") || singles(example, sizeof example);
}

/* A message of a bulb, the wheelhouse thermometer or the barometer, and what hearing it comes to. */
typedef struct {
    uint8_t channel;
    uint8_t state;
    uint32_t minute;
    float value;
    uint32_t number;
    uint64_t late;
} told;

/* In order. Channels 4 and 5 have a newest of their own, and what is refused moves none. */
static const told watch[] = {
    {4, 0, 1000, 14.8f, 0, 0},
    {4, 0, 1000, 14.8f, 8, 0},
    {4, 0, 1000, 20.0f, 8, 0}, /* whatever it says */
    {4, 0, 997, 14.8f, 19, 3},
    {4, 0, 999, 14.8f, 19, 1},
    {4, 0, 745, 14.8f, 19, 255}, /* still kept, and no longer */
    {4, 0, 744, 14.8f, 19, 256},
    {4, 0, 0, 14.8f, 19, 1000},
    {4, 0, 0, 50.1f, 7, 0}, /* the earlier test refuses */
    {4, 0, 2000, 50.1f, 7, 0},
    {4, 0, 16777216, 14.8f, 5, 0},
    {5, 0, 200, 13.0f, 0, 0}, /* another channel's first */
    {5, 0, 200, 13.0f, 8, 0},
    {1, 0, 0, 18.0f, 0, 0}, /* minute 0 as the first, and as the newest */
    {1, 0, 0, 18.0f, 8, 0},
    {1, 0, 16777215, 18.0f, 0, 0},
    {1, 0, 0, 18.0f, 19, 16777215},
    {4, 0, 1000, 14.8f, 8, 0},
    {4, 0, 1001, 14.8f, 0, 0},
    {4, 0, 1000, 14.8f, 19, 1},
};

static int hears(zhitomrak_store *store, told t)
{
    static zhitomrak_store was;
    was = *store;
    zhitomrak_heard heard = zhitomrak_hear_message(store, zhitomrak_message_of(t.channel, t.state, t.minute, t.value, 0));
    int same = memcmp(&was, store, sizeof was) == 0;
    if (heard.number == t.number && heard.late == t.late && same == (t.number != 0))
        return 0;
    printf("interface: channel %u, state %u, minute %lu: refused %lu, late %llu, the store %s; not %lu, %llu\n", t.channel, t.state,
           (unsigned long)t.minute, (unsigned long)heard.number, (unsigned long long)heard.late, same ? "as it was" : "changed",
           (unsigned long)t.number, (unsigned long long)t.late);
    return 1;
}

static int opens(zhitomrak_store *store)
{
    zhitomrak_settings settings = plain_settings();
    if (zhitomrak_open(store, &settings) == 0)
        return 0;
    printf("interface: good settings are refused\n");
    return 1;
}

static int messages(void)
{
    static zhitomrak_store store;
    if (opens(&store))
        return 1;
    for (size_t i = 0; i < sizeof watch / sizeof watch[0]; i++)
        if (hears(&store, watch[i]))
            return 1;
    return 0;
}

/* Bulbs at 1000.0 hPa with the wet one's state, what hearing that one comes to, and the humidity then: its number, e and percent. */
typedef struct {
    float dry;
    uint8_t state;
    float wet;
    uint32_t heard;
    uint32_t number;
    uint32_t e;
    uint32_t relative;
} air;

static const air airs[] = {
    {-10.0f, 0, -10.0f, 0, 0, 287, 100},
    {-10.0f, 1, -10.0f, 0, 0, 260, 91},
    {-10.0f, 1, -9.8f, 0, 0, 276, 96}, /* ice, and the wet bulb above the dry */
    {-9.9f, 2, -10.0f, 0, 0, 267, 92}, /* unknown: the mean, and ice */
    {-9.9f, 2, -9.9f, 0, 0, 262, 91},
    {-10.0f, 3, -10.0f, 4, 11, 0, 0},
    {-10.0f, 255, -10.0f, 4, 11, 0, 0},
    {-10.0f, 0, -9.9f, 0, 13, 0, 0},
    {0.0f, 1, 0.1f, 0, 20, 0, 0},
    {0.0f, 2, 50.0f, 0, 20, 0, 0},
    {-10.0f, 2, -10.0f, 0, 21, 0, 0},
    {-10.0f, 1, 0.0f, 0, 22, 0, 0},
    {-40.0f, 1, -40.0f, 0, 15, 0, 0},
};

static int humidities(void)
{
    static zhitomrak_store store;
    size_t count = sizeof airs / sizeof airs[0];
    if (opens(&store) || hears(&store, (told){4, 1, 0, 5.0f, 3, 0})) /* no other channel has a state */
        return 1;
    for (uint32_t minute = 0; minute < count; minute++) {
        air a = airs[minute];
        if (hears(&store, (told){0, 0, minute, 1000.0f, 0, 0}) || hears(&store, (told){4, 0, minute, a.dry, 0, 0}) ||
            hears(&store, (told){5, a.state, minute, a.wet, a.heard, 0}))
            return 1;
    }
    for (uint32_t minute = 0; minute < count; minute++) {
        zhitomrak_humidity_answer h = zhitomrak_humidity(&store, minute);
        air a = airs[minute];
        if (h.refusal.number == a.number && h.vapour_pressure == a.e && h.relative_humidity == a.relative)
            continue;
        printf("interface: dry %.1f, state %u, wet %.1f: refused %lu, e %lu, %lu %%; not %lu, %lu, %lu\n", (double)a.dry, a.state,
               (double)a.wet, (unsigned long)h.refusal.number, (unsigned long)h.vapour_pressure,
               (unsigned long)h.relative_humidity, (unsigned long)a.number, (unsigned long)a.e, (unsigned long)a.relative);
        return 1;
    }
    return 0;
}

/* An anemometer's certificate, all of its points, and what opening with it comes to. */
typedef struct {
    const char *what;
    zhitomrak_anemometer anemometer;
    uint32_t number;
} certificate;

static const certificate certificates[] = {
    {"none", {0, {{0, 0}}}, 0},
    {"none, with points behind it", {0, {{5, 5}, {4, 4}}}, 0},
    {"one point", {1, {{5, 50}}}, 25},
    {"the widest", {2, {{0, 0}, {9999, 750}}}, 0},
    {"a rate of -1", {2, {{-1, 0}, {9999, 750}}}, 25},
    {"a rate of 10000", {2, {{0, 0}, {10000, 750}}}, 25},
    {"a speed of -0.1", {2, {{0, -1}, {9999, 750}}}, 25},
    {"a speed of 75.1", {2, {{0, 0}, {9999, 751}}}, 25},
    {"a rate twice", {3, {{1, 1}, {2, 2}, {2, 3}}}, 25},
    {"a speed twice", {3, {{1, 1}, {2, 2}, {3, 2}}}, 25},
    {"a rate that falls", {2, {{2, 1}, {1, 2}}}, 25},
    {"a speed that falls", {2, {{1, 2}, {2, 1}}}, 25},
    {"the least and the most of 32 bits", {2, {{INT32_MIN, INT32_MIN}, {INT32_MAX, INT32_MAX}}}, 25},
};

static int opened_as(const char *what, zhitomrak_settings settings, uint32_t number)
{
    static zhitomrak_store store, was;
    memset(&store, 0xa5, sizeof store);
    was = store;
    uint32_t opened = zhitomrak_open(&store, &settings);
    int same = memcmp(&was, &store, sizeof was) == 0;
    if (opened == number && same == (number != 0))
        return 0;
    printf("interface: an anemometer's certificate, %s: refused %lu, the memory %s; not %lu\n", what, (unsigned long)opened,
           same ? "as it was" : "changed", (unsigned long)number);
    return 1;
}

static int openings(void)
{
    zhitomrak_settings settings = plain_settings();
    for (size_t i = 0; i < sizeof certificates / sizeof certificates[0]; i++) {
        settings.anemometer = certificates[i].anemometer;
        if (opened_as(certificates[i].what, settings, certificates[i].number))
            return 1;
    }
    settings = plain_settings();
    for (int i = 0; i < ZHITOMRAK_ANEMOMETER_MAX_POINTS; i++)
        settings.anemometer.points[i] = (zhitomrak_anemometer_point){i, 2 * i};
    settings.anemometer.count = 20;
    if (opened_as("20 points", settings, 0))
        return 1;
    settings.anemometer.count = 21;
    if (opened_as("21 points", settings, 25))
        return 1;
    settings.anemometer.count = UINT32_MAX;
    if (opened_as("more points than can be", settings, 25))
        return 1;
    settings.count = 1; /* 10 comes first, and 9 before that */
    if (opened_as("and a barometer's of one point", settings, 10))
        return 1;
    settings.height = 601;
    return opened_as("and a height of 60.1 m", settings, 9);
}

/* An entry, and what noting it comes to. */
typedef struct {
    zhitomrak_entry entry;
    uint32_t number;
    uint32_t channel;
    uint32_t minute;
    uint64_t late;
} entered;

/* In order, on a ship at rest whose course is 350 at minute 1000 and 0 at 1100; there is no course between. A good entry is {M, 10,
 * 9900, 200, 60}: 300 divisions in a minute are 5 a second, 4.9 m/s. */
static const entered log_of_entries[] = {
    {{16777216, 361, 10000, 0, 0}, 5, 0, 0, 0},
    {{UINT32_MAX, 10, 9900, 200, 60}, 5, 0, 0, 0},
    {{1000, 361, 10000, 0, 0}, 7, 0, 0, 0},
    {{1000, UINT32_MAX, 9900, 200, 60}, 7, 0, 0, 0},
    {{1000, 10, 10000, 200, 60}, 23, 0, 0, 0},
    {{1000, 10, 9900, 10000, 60}, 23, 0, 0, 0},
    {{1000, 10, 9900, 200, 0}, 23, 0, 0, 0},
    {{1000, 10, 9900, 200, 601}, 23, 0, 0, 0},
    {{1000, 10, UINT32_MAX, UINT32_MAX, UINT32_MAX}, 23, 0, 0, 0},
    {{1001, 10, 9900, 200, 601}, 23, 0, 0, 0}, /* before the course is missed */
    {{1001, 10, 9900, 200, 60}, 11, 3, 1001, 0},
    {{999, 10, 0, 0, 60}, 11, 3, 999, 0},  /* before the rate is looked at */
    {{1000, 10, 0, 0, 60}, 24, 0, 0, 0},   /* no division */
    {{1000, 10, 0, 59, 60}, 24, 0, 0, 0},  /* one less than 1 a second */
    {{1000, 10, 0, 1201, 60}, 24, 0, 0, 0}, /* one more than 20 */
    {{1000, 10, 9900, 200, 60}, 0, 0, 0, 0},
    {{1000, 10, 9900, 200, 60}, 8, 0, 0, 0},
    {{1000, 10, 10000, 200, 0}, 8, 0, 0, 0}, /* before 23 */
    {{940, 10, 10000, 200, 0}, 19, 0, 0, 60},
    {{0, 10, 9900, 200, 60}, 19, 0, 0, 1000},
    {{0, 361, 9900, 200, 60}, 7, 0, 0, 0}, /* before 19 */
    {{1100, 360, 0, 60, 60}, 0, 0, 0, 0},  /* the lower end, 1 a second, from 360 */
};

static int notes(zhitomrak_store *store, entered e)
{
    static zhitomrak_store was;
    was = *store;
    zhitomrak_noted noted = zhitomrak_note(store, e.entry);
    int same = memcmp(&was, store, sizeof was) == 0;
    if (noted.number == e.number && noted.channel == e.channel && noted.minute == e.minute && noted.late == e.late &&
        same == (e.number != 0))
        return 0;
    printf("interface: entry %lu %lu %lu %lu %lu: refused %lu, channel %lu, minute %lu, late %llu, the store %s; not %lu\n",
           (unsigned long)e.entry.minute, (unsigned long)e.entry.direction, (unsigned long)e.entry.first, (unsigned long)e.entry.second,
           (unsigned long)e.entry.seconds, (unsigned long)noted.number, (unsigned long)noted.channel, (unsigned long)noted.minute,
           (unsigned long long)noted.late, same ? "as it was" : "changed", (unsigned long)e.number);
    return 1;
}

/* The ship's motion, or the wind from its head. */
static int pairs(zhitomrak_store *store, uint8_t channel, uint32_t minute, float speed, float direction, uint32_t number)
{
    if (zhitomrak_hear_message(store, zhitomrak_message_of(channel, 0, minute, speed, direction)).number == number)
        return 0;
    printf("interface: channel %u, minute %lu: not %lu\n", channel, (unsigned long)minute, (unsigned long)number);
    return 1;
}

static int blows(const zhitomrak_store *store, uint32_t minute, uint32_t speed, uint32_t direction)
{
    zhitomrak_wind_answer w = zhitomrak_wind(store, minute);
    if (w.refusal.number == 0 && w.speed == speed && w.direction == direction)
        return 0;
    printf("interface: the wind of minute %lu: refused %lu, %lu from %lu; not %lu from %lu\n", (unsigned long)minute,
           (unsigned long)w.refusal.number, (unsigned long)w.speed, (unsigned long)w.direction, (unsigned long)speed,
           (unsigned long)direction);
    return 1;
}

/* The ship lies still, so the true wind is the one that was noted, from where the compass had it. */
static int entries(void)
{
    static zhitomrak_store store;
    if (opens(&store) || pairs(&store, 3, 1000, 0.0f, 350.0f, 0) || pairs(&store, 3, 1100, 0.0f, 0.0f, 0))
        return 1;
    for (size_t i = 0; i < sizeof log_of_entries / sizeof log_of_entries[0]; i++)
        if (notes(&store, log_of_entries[i]))
            return 1;
    if (blows(&store, 1000, 49, 10) || blows(&store, 1100, 13, 360))
        return 1;
    /* the head's message is late by an entry, and then an entry by the head's message */
    if (pairs(&store, 2, 1099, 8.0f, 0.0f, 19) || pairs(&store, 2, 1100, 8.0f, 0.0f, 8) || pairs(&store, 2, 1101, 8.0f, 0.0f, 0))
        return 1;
    if (notes(&store, (entered){{1101, 10, 9900, 200, 60}, 8, 0, 0, 0}) || notes(&store, (entered){{1100, 10, 9900, 200, 60}, 19, 0, 0, 1}))
        return 1;
    /* a ship without a hand anemometer */
    zhitomrak_settings none = plain_settings();
    none.anemometer = (zhitomrak_anemometer){0};
    if (zhitomrak_open(&store, &none) != 0 || pairs(&store, 3, 1000, 0.0f, 350.0f, 0))
        return 1;
    return notes(&store, (entered){{1000, 10, 9900, 200, 60}, 24, 0, 0, 0});
}

/* A wind from its head, whose figures may be exact halves; what hearing it comes to, and what is kept of it. */
typedef struct {
    float speed;
    float direction;
    uint32_t number;
    uint32_t kept_speed;
    uint32_t kept_direction;
} blown;

static const blown winds[] = {
    {8.25f, 10.5f, 0, 82, 10}, {8.75f, 11.5f, 0, 88, 12}, {8.0f, 359.5f, 0, 80, 360}, {8.0f, 360.5f, 0, 80, 360},
    {8.0f, -0.5f, 0, 80, 360}, {8.0f, 361.5f, 7, 0, 0},   {8.0f, -1.5f, 7, 0, 0},
};

/* The ship lies still with her bow to the north, so the true wind is the one that was kept. */
static int halves(void)
{
    static zhitomrak_store store;
    if (opens(&store))
        return 1;
    uint32_t minute = 1000;
    for (size_t i = 0; i < sizeof winds / sizeof winds[0]; i++, minute++) {
        blown w = winds[i];
        if (pairs(&store, 3, minute, 0, 0, 0) || pairs(&store, 2, minute, w.speed, w.direction, w.number))
            return 1;
        if (w.number == 0 && blows(&store, minute, w.kept_speed, w.kept_direction))
            return 1;
    }
    /* 150 divisions in a minute are 2.5 a second: 2.65 m/s, taken as 2.7 */
    return pairs(&store, 3, minute, 0, 0, 0) || notes(&store, (entered){{minute, 90, 0, 150, 60}, 0, 0, 0, 0}) ||
           blows(&store, minute, 27, 90);
}

int main(void)
{
    return files() || messages() || humidities() || openings() || entries() || halves();
}
