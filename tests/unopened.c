/* Memory that was never opened is no store: zeroed, and after openings that were all refused, it answers ZHITOMRAK_NO_STORE to a
 * message, to an entry, to the four questions and to what asks for its settings or for what is kept, and stays all zeros. */
#include <stdio.h>
#include <string.h>

#include "zhitomrak.h"

static zhitomrak_store store;
static int wrong;

static void expect(const char *what, uint32_t got, uint32_t wanted)
{
    if (got != wanted) {
        printf("%s: %u, not %u\n", what, (unsigned)got, (unsigned)wanted);
        wrong = 1;
    }
}

/* A message's refusal has its number, and no minutes. */
static void expect_not_heard(const char *what, zhitomrak_heard heard)
{
    expect(what, heard.number, ZHITOMRAK_NO_STORE);
    expect(what, heard.late != 0, 0);
}

/* An entry's refusal has its number, and nothing else. */
static void expect_not_noted(const char *what, zhitomrak_noted noted)
{
    expect(what, noted.number, ZHITOMRAK_NO_STORE);
    expect(what, noted.channel, 0);
    expect(what, noted.minute, 0);
    expect(what, noted.late != 0, 0);
}

/* A question's refusal has its number, and nothing else. */
static void expect_refusal(const char *what, zhitomrak_refusal why)
{
    expect(what, why.number, ZHITOMRAK_NO_STORE);
    expect(what, why.channel, 0);
    expect(what, why.minute, 0);
}

/* Its settings, and what it keeps of a channel, one that there is or not. */
static void expect_nothing_kept(uint32_t channel, uint32_t minute)
{
    zhitomrak_settings settings;
    zhitomrak_newest_answer newest = zhitomrak_newest(&store, channel);
    zhitomrak_reading_answer reading = zhitomrak_reading(&store, channel, minute);
    uint8_t marks[3] = {7, 7, 7};
    expect("settings", zhitomrak_settings_of(&store, &settings), ZHITOMRAK_NO_STORE);
    expect("the newest minute", newest.number, ZHITOMRAK_NO_STORE);
    expect("the newest minute's figure", newest.minute != 0, 0);
    expect_refusal("a reading", reading.refusal);
    if (reading.channel || reading.unit || reading.first || reading.second)
        expect("a figure beside a reading's refusal", 1, 0);
    expect("a stretch", zhitomrak_stretch(&store, channel, minute, marks, sizeof marks), ZHITOMRAK_NO_STORE);
    expect("a mark that was written", marks[0] != 7 || marks[1] != 7 || marks[2] != 7, 0);
}

static void expect_no_store(void)
{
    static const zhitomrak_store zeros;
    static const uint32_t minutes[] = {0, 179, 180, 16777215, 16777216, UINT32_MAX};
    zhitomrak_message message = zhitomrak_message_barometer(0, 1000.0f);
    expect_not_heard("a message", zhitomrak_hear_message(&store, message));
    expect_not_heard("a message of 15 bytes", zhitomrak_hear(&store, message.bytes, 15));
    zhitomrak_entry entry = {.minute = 100, .direction = 10, .first = 9900, .second = 200, .seconds = 60};
    expect_not_noted("an entry", zhitomrak_note(&store, entry));
    entry = (zhitomrak_entry){UINT32_MAX, UINT32_MAX, UINT32_MAX, UINT32_MAX, UINT32_MAX};
    expect_not_noted("an entry that is wrong", zhitomrak_note(&store, entry));
    for (size_t i = 0; i < sizeof minutes / sizeof minutes[0]; i++) {
        zhitomrak_pressure_answer p = zhitomrak_pressure(&store, minutes[i]);
        zhitomrak_tendency_answer t = zhitomrak_tendency(&store, minutes[i]);
        zhitomrak_wind_answer w = zhitomrak_wind(&store, minutes[i]);
        zhitomrak_humidity_answer h = zhitomrak_humidity(&store, minutes[i]);
        for (uint32_t channel = 0; channel <= ZHITOMRAK_CHANNELS; channel++)
            expect_nothing_kept(channel, minutes[i]);
        expect_refusal("pressure", p.refusal);
        expect_refusal("tendency", t.refusal);
        expect_refusal("wind", w.refusal);
        expect_refusal("humidity", h.refusal);
        if (p.pressure || t.change || t.absent || w.speed || w.direction || h.vapour_pressure || h.saturation || h.deficit ||
            h.relative_humidity || h.dew_point)
            expect("a figure beside a refusal", 1, 0);
    }
    expect("a word that was written", memcmp(&store, &zeros, sizeof store) != 0, 0);
}

int main(void)
{
    zhitomrak_settings settings = {.unit = 2, .psychrometer = 662, .count = 2, .points = {{8500, 0}, {11000, 0}}};
    expect_no_store();
    expect("a unit that is none", zhitomrak_open(&store, &settings), 9);
    settings.unit = ZHITOMRAK_UNIT_HPA;
    settings.height = 601;
    expect("a height of 60.1 m", zhitomrak_open(&store, &settings), 9);
    settings.height = 0;
    settings.count = 1;
    expect("a certificate of one point", zhitomrak_open(&store, &settings), 10);
    settings.count = 2;
    settings.anemometer.count = 1;
    expect("an anemometer's certificate of one point", zhitomrak_open(&store, &settings), 25);
    expect_no_store();
    return wrong;
}
