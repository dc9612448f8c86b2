/* The version, settings read back, messages heard many at once, and what is kept: the newest minute, the reading of a minute, which
 * minutes of a stretch have one. */
#include <math.h>

#include "check.h"

/* Settings whose every field is used: both certificates as long as they can be, and numbers at the ends of their limits. */
static zhitomrak_settings full_settings(void)
{
    zhitomrak_settings settings = {
        .unit = ZHITOMRAK_UNIT_MM_HG,
        .height = 600,
        .difference = -300,
        .coefficient = -50,
        .psychrometer = 1000,
        .count = ZHITOMRAK_CERTIFICATE_MAX_POINTS,
        .anemometer = {.count = ZHITOMRAK_ANEMOMETER_MAX_POINTS},
    };
    for (int i = 0; i < ZHITOMRAK_CERTIFICATE_MAX_POINTS; i++)
        settings.points[i] = (zhitomrak_point){6400 + 123 * i, i % 2 ? 50 - i : i - 50};
    settings.points[15].reading = 8250;
    for (int i = 0; i < ZHITOMRAK_ANEMOMETER_MAX_POINTS; i++)
        settings.anemometer.points[i] = (zhitomrak_anemometer_point){526 * i, 39 * i};
    settings.anemometer.points[19] = (zhitomrak_anemometer_point){9999, 750};
    return settings;
}

/* Opening with the settings, reading them back and opening with those gives the same block; what is read back is this. */
static void reads_back(const zhitomrak_settings *settings, const zhitomrak_settings *wanted)
{
    static zhitomrak_store first, again, was;
    zhitomrak_settings found;
    memset(&first, 0x5a, sizeof first);
    memset(&again, 0xa5, sizeof again);
    memset(&found, 0xa5, sizeof found);
    IS(zhitomrak_open(&first, settings), 0);
    was = first;
    IS(zhitomrak_settings_of(&first, &found), 0);
    SAME(&first, &was, sizeof first);
    SAME(&found, wanted, sizeof found);
    IS(zhitomrak_open(&again, &found), 0);
    SAME(&again, &was, sizeof again);
    /* a store that has heard has the same settings, and opening with them gives an empty one */
    hear(&first, zhitomrak_message_wheelhouse(7, 20.0f));
    IS(memcmp(&first, &was, sizeof first) != 0, 1);
    memset(&found, 0xa5, sizeof found);
    IS(zhitomrak_settings_of(&first, &found), 0);
    SAME(&found, wanted, sizeof found);
    IS(zhitomrak_open(&first, &found), 0);
    SAME(&first, &was, sizeof first);
}

static void settings_are_read_back(void)
{
    static zhitomrak_store unopened, zeros;
    zhitomrak_settings settings = full_settings(), wanted = settings, untouched;
    reads_back(&settings, &wanted);
    settings.unit = wanted.unit = ZHITOMRAK_UNIT_HPA;
    settings.height = wanted.height = 0;
    settings.difference = wanted.difference = 300;
    settings.coefficient = wanted.coefficient = 50;
    settings.psychrometer = wanted.psychrometer = 500;
    for (int i = 0; i < ZHITOMRAK_CERTIFICATE_MAX_POINTS; i++)
        settings.points[i].reading = wanted.points[i].reading = 8500 + i;
    reads_back(&settings, &wanted);
    /* points behind the last are not settings: zeros */
    settings.count = wanted.count = 3;
    settings.anemometer.count = wanted.anemometer.count = 2;
    settings.points[3] = (zhitomrak_point){INT32_MIN, INT32_MAX};
    memset(wanted.points + 3, 0, 13 * sizeof wanted.points[0]);
    memset(wanted.anemometer.points + 2, 0, 18 * sizeof wanted.anemometer.points[0]);
    reads_back(&settings, &wanted);
    /* no hand anemometer */
    settings.anemometer.count = 0;
    memset(&wanted.anemometer, 0, sizeof wanted.anemometer);
    reads_back(&settings, &wanted);
    /* memory that was never opened, and after an opening that was refused */
    memset(&settings, 0xa5, sizeof settings);
    untouched = settings;
    IS(zhitomrak_settings_of(&unopened, &settings), ZHITOMRAK_NO_STORE);
    SAME(&settings, &untouched, sizeof settings);
    IS(zhitomrak_open(&unopened, &settings), 9);
    IS(zhitomrak_settings_of(&unopened, &settings), ZHITOMRAK_NO_STORE);
    SAME(&settings, &untouched, sizeof settings);
    SAME(&unopened, &zeros, sizeof unopened);
    /* a store whose opening is refused keeps its settings */
    wanted = plain_settings();
    open_plain(&unopened);
    IS(zhitomrak_open(&unopened, &untouched), 9);
    IS(zhitomrak_settings_of(&unopened, &settings), 0);
    SAME(&settings, &wanted, sizeof settings);
}

/* ---- many messages at once */

typedef struct {
    zhitomrak_message message;
    uint32_t number;
} sent;

/* In order: every number that a whole message can get. */
static size_t some_messages(sent *to)
{
    size_t n = 0;
    to[n++] = (sent){zhitomrak_message_barometer(100, 1013.25f), 0};
    to[n++] = (sent){zhitomrak_message_barometer(100, 1013.25f), 8};
    to[n++] = (sent){zhitomrak_message_barometer(40, 1013.25f), 19};
    to[n++] = (sent){zhitomrak_message_of(6, 0, 101, 10.0f, 0), 2};
    to[n++] = (sent){zhitomrak_message_of(256, 0, 101, 10.0f, 0), 2}; /* a channel that fits no byte is told as 255 */
    to[n++] = (sent){zhitomrak_message_of(4, 1, 101, 10.0f, 0), 3};
    to[n++] = (sent){zhitomrak_message_of(4, 0, 101, 10.0f, -0.0f), 3};
    to[n++] = (sent){zhitomrak_message_wet_bulb(101, 10.0f, 3), 4};
    to[n++] = (sent){zhitomrak_message_wet_bulb(101, 10.0f, 256), 4}; /* a state that fits no byte, too */
    to[n++] = (sent){zhitomrak_message_dry_bulb(16777216, 10.0f), 5};
    to[n++] = (sent){zhitomrak_message_dry_bulb(101, NAN), 6};
    to[n++] = (sent){zhitomrak_message_ship_motion(101, 10.0f, INFINITY), 6};
    to[n++] = (sent){zhitomrak_message_dry_bulb(101, 50.06f), 7};
    to[n++] = (sent){zhitomrak_message_ship_motion(101, 10.5f, 45.0f), 0};
    to[n++] = (sent){zhitomrak_message_wet_bulb(101, -3.0f, ZHITOMRAK_STATE_UNKNOWN), 0};
    to[n++] = (sent){zhitomrak_message_wheelhouse(0, 20.0f), 0};
    to[n++] = (sent){zhitomrak_message_apparent_wind(16777215, 8.5f, 30.0f), 0};
    to[n++] = (sent){zhitomrak_message_apparent_wind(101, 8.5f, 30.0f), 19};
    return n;
}

/* Heard at once, with 7 bytes behind them that are too few: the block and the counts are those of one by one. */
static void messages_are_counted(void)
{
    static zhitomrak_store all, single;
    static zhitomrak_counts counts, wanted;
    sent list[32];
    uint8_t bytes[32 * 16 + 7] = {0};
    size_t n = some_messages(list);
    open_plain(&all);
    single = all;
    for (size_t i = 0; i < ZHITOMRAK_COUNTS; i++)
        counts.of[i] = wanted.of[i] = 1000 * i;
    counts.of[4] = wanted.of[4] = UINT64_MAX - 1; /* two come, and the largest stays */
    for (size_t i = 0; i < n; i++) {
        memcpy(bytes + 16 * i, list[i].message.bytes, 16);
        IS(zhitomrak_hear_message(&single, list[i].message).number, list[i].number);
        wanted.of[list[i].number] += wanted.of[list[i].number] != UINT64_MAX;
    }
    IS(wanted.of[4] == UINT64_MAX, 1);
    IS(wanted.of[0], 5);
    wanted.of[1]++;
    zhitomrak_hear_all(&all, bytes, 16 * n + 7, &counts);
    SAME(&all, &single, sizeof all);
    SAME(&counts, &wanted, sizeof counts);
    IS(counts.of[1], 1001);
    IS(counts.of[8], 8001);
    IS(counts.of[19], 19002);
}

/* Lengths round none, one and two messages, of a message that is heard and of the same again. */
static void lengths_are_cut(void)
{
    static const uint64_t heard[] = {0, 0, 0, 1, 1, 1, 1, 1}, again[] = {0, 0, 0, 0, 0, 0, 1, 1}, cut[] = {0, 1, 1, 0, 1, 1, 0, 1};
    static const size_t lengths[] = {0, 1, 15, 16, 17, 31, 32, 33};
    static const zhitomrak_counts none;
    static zhitomrak_store all;
    zhitomrak_message twice[3] = {zhitomrak_message_barometer(100, 1013.25f)};
    twice[1] = twice[0];
    for (size_t i = 0; i < 8; i++) {
        zhitomrak_counts counts = none, wanted = none;
        wanted.of[0] = heard[i];
        wanted.of[8] = again[i];
        wanted.of[1] = cut[i];
        open_plain(&all);
        zhitomrak_hear_all(&all, twice->bytes, lengths[i], &counts);
        SAME(&counts, &wanted, sizeof counts);
        IS(zhitomrak_newest(&all, 0).number, heard[i] ? 0 : 11);
    }
    /* memory that was never opened, for what is cut too */
    static zhitomrak_store unopened, zeros;
    zhitomrak_counts counts = none, wanted = none;
    wanted.of[ZHITOMRAK_NO_STORE] = 3;
    zhitomrak_hear_all(&unopened, twice->bytes, 33, &counts);
    SAME(&counts, &wanted, sizeof counts);
    SAME(&unopened, &zeros, sizeof unopened);
}

/* ---- what is kept */

static void is_newest(const zhitomrak_store *store, uint32_t channel, uint32_t number, uint64_t minute)
{
    zhitomrak_newest_answer newest = zhitomrak_newest(store, channel);
    IS(newest.number, number);
    IS(newest.minute, minute);
}

static void newest_is_told(void)
{
    static const uint32_t none[] = {6, 7, 255, 256, 65536, UINT32_MAX};
    static zhitomrak_store store;
    for (uint32_t channel = 0; channel < 8; channel++)
        is_newest(&store, channel, ZHITOMRAK_NO_STORE, 0);
    open_plain(&store);
    for (uint32_t channel = 0; channel < ZHITOMRAK_CHANNELS; channel++) {
        is_newest(&store, channel, 11, 0);
        hear(&store, zhitomrak_message_of(channel, 0, 10 * channel, channel == 0 ? 1000.0f : 5.0f, 0));
        is_newest(&store, channel, 0, 10 * channel); /* of channel 0 minute 0 */
        hear(&store, zhitomrak_message_of(channel, 0, 1000 + channel, channel == 0 ? 1000.0f : 5.0f, 0));
        is_newest(&store, channel, 0, 1000 + channel);
        IS(zhitomrak_hear_message(&store, zhitomrak_message_of(channel, 0, 999, channel == 0 ? 1000.0f : 5.0f, 0)).number, 19);
        is_newest(&store, channel, 0, 1000 + channel);
    }
    for (size_t i = 0; i < sizeof none / sizeof none[0]; i++)
        is_newest(&store, none[i], 2, 0);
    hear(&store, zhitomrak_message_ship_motion(1500, 5.0f, 260.0f));
    IS(zhitomrak_note(&store, (zhitomrak_entry){1500, 300, 9940, 80, 60}).number, 0);
    is_newest(&store, ZHITOMRAK_CHANNEL_APPARENT_WIND, 0, 1500);
    hear(&store, zhitomrak_message_dry_bulb(16777215, 5.0f));
    is_newest(&store, ZHITOMRAK_CHANNEL_DRY_BULB, 0, 16777215);
}

/* The reading of a minute: the unit, tenths of it, and degrees or a state. */
static void keeps(const zhitomrak_store *store, uint32_t channel, uint32_t minute, uint32_t unit, int32_t first, uint32_t second)
{
    zhitomrak_reading_answer reading = zhitomrak_reading(store, channel, minute);
    REFUSED(reading.refusal, 0, 0, 0);
    IS(reading.channel, channel);
    IS(reading.unit, unit);
    IS(reading.first, first);
    IS(reading.second, second);
}

/* There is none: all figures are 0. */
static void keeps_none(const zhitomrak_store *store, uint32_t channel, uint32_t minute, uint32_t number)
{
    zhitomrak_reading_answer reading = zhitomrak_reading(store, channel, minute);
    REFUSED(reading.refusal, number, number == 11 ? channel : 0, number == 11 ? minute : 0);
    IS(reading.channel, 0);
    IS(reading.unit, 0);
    IS(reading.first, 0);
    IS(reading.second, 0);
}

/* The examples of docs/FORMAT.md among them. */
static void readings_are_told(void)
{
    static zhitomrak_store store;
    keeps_none(&store, 0, 100, ZHITOMRAK_NO_STORE);
    keeps_none(&store, 6, 16777216, ZHITOMRAK_NO_STORE);
    open_plain(&store);
    for (uint32_t channel = 0; channel < ZHITOMRAK_CHANNELS; channel++)
        keeps_none(&store, channel, 100, 11);
    hear(&store, zhitomrak_message_barometer(100, 1013.25f));
    hear(&store, zhitomrak_message_wheelhouse(100, -0.25f));
    hear(&store, zhitomrak_message_apparent_wind(100, 8.0f, 360.4f));
    hear(&store, zhitomrak_message_ship_motion(100, 8.75f, -0.5f));
    hear(&store, zhitomrak_message_dry_bulb(100, 0.75f));
    hear(&store, zhitomrak_message_wet_bulb(100, -10.0f, ZHITOMRAK_STATE_ICE));
    keeps(&store, 0, 100, ZHITOMRAK_UNIT_HPA, 10132, 0);
    keeps(&store, 1, 100, ZHITOMRAK_UNIT_CELSIUS, -2, 0);
    keeps(&store, 2, 100, ZHITOMRAK_UNIT_METRES_PER_SECOND, 80, 0);
    keeps(&store, 3, 100, ZHITOMRAK_UNIT_KNOTS, 88, 0);
    keeps(&store, 4, 100, ZHITOMRAK_UNIT_CELSIUS, 8, 0);
    keeps(&store, 5, 100, ZHITOMRAK_UNIT_CELSIUS, -100, ZHITOMRAK_STATE_ICE);
    hear(&store, zhitomrak_message_apparent_wind(101, 75.0f, 359.0f));
    hear(&store, zhitomrak_message_ship_motion(101, 40.0f, 11.5f));
    hear(&store, zhitomrak_message_wet_bulb(101, -40.0f, ZHITOMRAK_STATE_UNKNOWN));
    hear(&store, zhitomrak_message_wet_bulb(102, 50.0f, ZHITOMRAK_STATE_WATER));
    hear(&store, zhitomrak_message_wheelhouse(101, 60.0f));
    keeps(&store, 2, 101, ZHITOMRAK_UNIT_METRES_PER_SECOND, 750, 359);
    keeps(&store, 3, 101, ZHITOMRAK_UNIT_KNOTS, 400, 12);
    keeps(&store, 5, 101, ZHITOMRAK_UNIT_CELSIUS, -400, ZHITOMRAK_STATE_UNKNOWN);
    keeps(&store, 5, 102, ZHITOMRAK_UNIT_CELSIUS, 500, ZHITOMRAK_STATE_WATER);
    keeps(&store, 1, 101, ZHITOMRAK_UNIT_CELSIUS, 600, 0);
}

/* What is not there, not yet and no longer; an entry; and the barometer's unit. */
static void readings_come_and_go(void)
{
    static zhitomrak_store store;
    zhitomrak_settings settings = full_settings();
    open_plain(&store);
    hear(&store, zhitomrak_message_barometer(100, 1013.25f));
    hear(&store, zhitomrak_message_dry_bulb(100, 0.75f));
    /* each channel's minutes are its own */
    keeps_none(&store, 0, 101, 11);
    keeps_none(&store, 1, 100, 11);
    keeps_none(&store, 4, 99, 11);
    /* 2, then 5, then 11 */
    keeps_none(&store, 6, 100, 2);
    keeps_none(&store, 6, 16777216, 2);
    keeps_none(&store, UINT32_MAX, UINT32_MAX, 2);
    keeps_none(&store, 0, 16777216, 5);
    keeps_none(&store, 5, UINT32_MAX, 5);
    keeps_none(&store, 0, 16777215, 11);
    /* the newest minute and the 255 before it are kept */
    hear(&store, zhitomrak_message_barometer(355, 1000.0f));
    keeps(&store, 0, 100, ZHITOMRAK_UNIT_HPA, 10132, 0);
    hear(&store, zhitomrak_message_barometer(356, 1000.0f));
    keeps_none(&store, 0, 100, 11);
    keeps(&store, 0, 356, ZHITOMRAK_UNIT_HPA, 10000, 0);
    /* an entry: 140 divisions in a minute, from 300 by the compass with course 260 */
    hear(&store, zhitomrak_message_ship_motion(600, 12.5f, 260.0f));
    IS(zhitomrak_note(&store, (zhitomrak_entry){600, 300, 9940, 80, 60}).number, 0);
    keeps(&store, 2, 600, ZHITOMRAK_UNIT_METRES_PER_SECOND, 25, 40);
    /* the barometer's unit is the station's */
    IS(zhitomrak_open(&store, &settings), 0);
    hear(&store, zhitomrak_message_barometer(5, 741.9f));
    keeps(&store, 0, 5, ZHITOMRAK_UNIT_MM_HG, 7419, 0);
}

enum { LONGEST = 300 };

/* The marks of a stretch are these, and the byte behind it stays. */
static void is_marked(const zhitomrak_store *store, uint32_t channel, uint32_t first, const uint8_t *wanted, size_t count)
{
    uint8_t marks[LONGEST + 1];
    memset(marks, 0xa5, sizeof marks);
    IS(zhitomrak_stretch(store, channel, first, marks, count), 0);
    SAME(marks, wanted, count);
    IS(marks[count], 0xa5);
}

static void is_not_marked(const zhitomrak_store *store, uint32_t channel, uint32_t first, size_t count, uint32_t number)
{
    uint8_t marks[LONGEST + 1], was[LONGEST + 1];
    memset(marks, 0xa5, sizeof marks);
    memset(was, 0xa5, sizeof was);
    IS(zhitomrak_stretch(store, channel, first, marks, count), number);
    SAME(marks, was, sizeof marks);
}

/* Marks of the minutes from the first on: those that were heard and are among the newest 256. */
static void marks_of(const uint32_t *heard, size_t n, uint32_t first, uint8_t *marks)
{
    uint64_t newest = heard[n - 1];
    memset(marks, 0, LONGEST);
    for (size_t i = 0; i < n; i++)
        if (heard[i] + UINT64_C(255) >= newest && heard[i] >= first && heard[i] - first < LONGEST)
            marks[heard[i] - first] = 1;
}

/* The wheelhouse thermometer's, with gaps: every start, and lengths of none, one and more than are kept. */
static void stretches_from(const uint32_t *heard, size_t n, uint32_t from, uint32_t to)
{
    static zhitomrak_store store, was;
    uint8_t marks[LONGEST];
    open_plain(&store);
    for (size_t i = 0; i < n; i++)
        hear(&store, zhitomrak_message_wheelhouse(heard[i], 20.0f));
    was = store;
    for (uint32_t first = from; first != to; first++) {
        marks_of(heard, n, first, marks);
        is_marked(&store, 1, first, marks, 0);
        is_marked(&store, 1, first, marks, 1);
        is_marked(&store, 1, first, marks, LONGEST);
    }
    SAME(&store, &was, sizeof store);
}

static void stretches_are_marked(void)
{
    static const uint32_t gaps[] = {98, 99, 100, 102, 103, 110, 163, 164, 255, 256, 354, 355};
    static const uint32_t last[] = {16776900, 16776959, 16776960, 16776961, 16777000, 16777214, 16777215};
    static const uint32_t zero[] = {0};
    static const uint8_t shown[] = {0, 1, 0, 1, 1, 0, 0, 0, 0, 0, 0, 1}, nothing[LONGEST];
    static zhitomrak_store store;
    is_not_marked(&store, 0, 99, 12, ZHITOMRAK_NO_STORE);
    is_not_marked(&store, 6, 99, 12, ZHITOMRAK_NO_STORE);
    open_plain(&store);
    for (uint32_t channel = 0; channel < ZHITOMRAK_CHANNELS; channel++)
        is_marked(&store, channel, 0, nothing, LONGEST);
    for (size_t i = 0; i < sizeof gaps / sizeof gaps[0]; i++)
        hear(&store, zhitomrak_message_dry_bulb(gaps[i], 5.0f));
    is_marked(&store, 4, 99, shown, 12); /* 99 is no longer kept: 355 is newest */
    is_marked(&store, 5, 99, nothing, 12);
    is_marked(&store, 4, 356, nothing, LONGEST);
    is_marked(&store, 4, 16777215, nothing, LONGEST);
    is_marked(&store, 4, UINT32_MAX, nothing, LONGEST);
    is_not_marked(&store, 6, 99, 12, 2);
    is_not_marked(&store, 6, 99, 0, 2);
    is_not_marked(&store, 256, 99, LONGEST, 2);
    is_not_marked(&store, UINT32_MAX, UINT32_MAX, LONGEST, 2);
    stretches_from(gaps, sizeof gaps / sizeof gaps[0], 0, 700);
    stretches_from(last, sizeof last / sizeof last[0], 16776600, 16777600);
    stretches_from(zero, 1, 0, 300);
    stretches_from(zero, 1, UINT32_MAX - 300, 0); /* the minutes behind the largest first one are none, and not those from 0 on */
}

int main(void)
{
    IS(zhitomrak_version(), ZHITOMRAK_VERSION);
    IS(zhitomrak_version(), 100);
    IS(strcmp(ZHITOMRAK_VERSION_TEXT, "0.1.0"), 0);
    settings_are_read_back();
    messages_are_counted();
    lengths_are_cut();
    newest_is_told();
    readings_are_told();
    readings_come_and_go();
    stretches_are_marked();
    return wrong != 0;
}
