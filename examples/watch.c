/* A watch of four hours through the C interface: instruments are heard each minute with a gap, the four questions are asked, the wick
 * freezes, the wind head falls silent and the mate takes the hand anemometer, the answers go into a watch file, and the file is
 * listed. */
#include <inttypes.h>
#include <stdio.h>

#include "zhitomrak.h"

/* Hears a message, and says why where it is refused. Its first byte is the channel. */
static void send(zhitomrak_store *store, uint32_t minute, zhitomrak_message message)
{
    zhitomrak_sentence why;
    zhitomrak_heard heard = zhitomrak_hear_message(store, message);
    zhitomrak_say_heard(heard, &why);
    if (heard.number)
        printf("channel %u, minute %" PRIu32 ": %s\n", message.bytes[0], minute, why.bytes);
}

/* The wind by the hand anemometer. It needs the course of its minute, from channel 3. */
static void note(zhitomrak_store *store, zhitomrak_entry entry)
{
    zhitomrak_sentence why;
    zhitomrak_noted noted = zhitomrak_note(store, entry);
    zhitomrak_say_noted(noted, &why);
    if (noted.number)
        printf("entry, minute %" PRIu32 ": %s\n", entry.minute, why.bytes);
}

static void open(zhitomrak_store *store, const zhitomrak_settings *settings)
{
    zhitomrak_sentence said;
    zhitomrak_say_refusal(zhitomrak_open(store, settings), 0, 0, &said);
    printf("open: %s\n", said.bytes);
}

/* The instruments of one minute. */
static void minute_passes(zhitomrak_store *store, uint32_t minute)
{
    float falls = (float)minute * 0.03f;
    if (minute < 60 || minute >= 75) /* a quarter of an hour without barometer */
        send(store, minute, zhitomrak_message_barometer(minute, 741.9f - falls));
    send(store, minute, zhitomrak_message_wheelhouse(minute, 12.4f));
    send(store, minute, zhitomrak_message_apparent_wind(minute, 2.5f, 40.0f));
    send(store, minute, zhitomrak_message_ship_motion(minute, 12.5f, 260.0f));
    send(store, minute, zhitomrak_message_dry_bulb(minute, 20.0f));
    send(store, minute, zhitomrak_message_wet_bulb(minute, 15.0f, ZHITOMRAK_STATE_WATER));
}

/* The record of each answer. */
static int enter(const zhitomrak_store *store, zhitomrak_record records[4])
{
    return zhitomrak_record_of(store, ZHITOMRAK_KIND_TENDENCY, 230, &records[0]).number ||
           zhitomrak_record_of(store, ZHITOMRAK_KIND_PRESSURE, 240, &records[1]).number ||
           zhitomrak_record_of(store, ZHITOMRAK_KIND_WIND, 240, &records[2]).number ||
           zhitomrak_record_of(store, ZHITOMRAK_KIND_HUMIDITY, 240, &records[3]).number;
}

/* The records as a watch file: one by one, in whatever order they come, each in its place. The bytes of the file, or 0. */
static size_t keep(uint8_t file[ZHITOMRAK_FILE_MAX_BYTES], const zhitomrak_record records[4])
{
    zhitomrak_written none = zhitomrak_write(file, ZHITOMRAK_FILE_MAX_BYTES, records, 0);
    size_t size = none.bytes;
    for (size_t i = 4; i-- > 0;) {
        zhitomrak_placed placed = zhitomrak_place(file, ZHITOMRAK_FILE_MAX_BYTES, size, &records[i]);
        if (placed.number)
            return 0;
        size = placed.bytes;
    }
    return size;
}

/* The file's listing, as long as it is. */
static void list(const uint8_t *file, size_t size)
{
    uint8_t text[ZHITOMRAK_LISTING_MAX_BYTES];
    zhitomrak_listed listed = zhitomrak_list(file, size, text, sizeof text);
    fwrite(text, 1, listed.bytes, stdout);
}

int main(void)
{
    static zhitomrak_store store;
    zhitomrak_settings settings = {
        .unit = ZHITOMRAK_UNIT_MM_HG,
        .height = 101,
        .difference = -268, /* the Caspian */
        .coefficient = 24,
        .psychrometer = 662,
        .count = 2,
        .points = {{7300, -4}, {7500, -8}},
        /* table 1 of RD 52.04.651 */
        .anemometer = {.count = 11,
                       .points = {{1, 13}, {2, 22}, {3, 31}, {4, 40}, {5, 49}, {6, 58}, {7, 67}, {8, 76}, {9, 85}, {10, 94}, {20, 188}}},
    };
    settings.height = 601;
    open(&store, &settings);
    settings.height = 101;
    open(&store, &settings);
    for (uint32_t minute = 0; minute <= 240; minute++)
        minute_passes(&store, minute);
    send(&store, 240, zhitomrak_message_barometer(240, 741.9f)); /* the newest minute again */
    send(&store, 180, zhitomrak_message_dry_bulb(180, 20.0f)); /* a clock that has gone back by an hour */

    zhitomrak_sentence said;
    zhitomrak_say_pressure(zhitomrak_pressure(&store, 70), &said);
    printf("pressure: %s\n", said.bytes);
    zhitomrak_say_pressure(zhitomrak_pressure(&store, 240), &said);
    printf("pressure: %s\n", said.bytes);
    zhitomrak_say_tendency(zhitomrak_tendency(&store, 230), &said);
    printf("tendency: %s\n", said.bytes);
    zhitomrak_say_wind(zhitomrak_wind(&store, 240), &said);
    printf("wind: %s\n", said.bytes);
    zhitomrak_say_humidity(zhitomrak_humidity(&store, 240), &said);
    printf("humidity: %s\n", said.bytes);

    send(&store, 241, zhitomrak_message_barometer(241, 734.7f));
    send(&store, 241, zhitomrak_message_dry_bulb(241, -10.0f));
    send(&store, 241, zhitomrak_message_wet_bulb(241, -10.0f, 3)); /* there is no state 3 */
    send(&store, 241, zhitomrak_message_wet_bulb(241, -10.0f, ZHITOMRAK_STATE_ICE));
    zhitomrak_say_humidity(zhitomrak_humidity(&store, 241), &said);
    printf("humidity by an iced bulb: %s\n", said.bytes);

    /* 140 divisions in a minute, past 9999, by the compass from 300 degrees: 2.5 m/s, and 40 degrees from the bow */
    zhitomrak_entry entry = {.minute = 242, .direction = 300, .first = 9940, .second = 80, .seconds = 60};
    note(&store, entry); /* the course has not come yet */
    send(&store, 242, zhitomrak_message_ship_motion(242, 12.5f, 260.0f));
    note(&store, entry);
    note(&store, entry); /* the same minute again */
    zhitomrak_say_wind(zhitomrak_wind(&store, 242), &said);
    printf("wind by hand: %s\n", said.bytes);

    zhitomrak_record records[4];
    uint8_t file[ZHITOMRAK_FILE_MAX_BYTES];
    if (enter(&store, records))
        return 1;
    zhitomrak_say_written(zhitomrak_write(file, 10, records, 4), &said);
    printf("write: %s\n", said.bytes);
    size_t size = keep(file, records);
    printf("written: %zu bytes\n", size);

    zhitomrak_file read = zhitomrak_read(file, size);
    if (read.count == 0)
        return 1;
    zhitomrak_record last = zhitomrak_record_at(file, size, read.count - 1);
    printf("read: %zu records, the last of minute %" PRIu32 "\n", read.count, last.minute);
    uint8_t text[10];
    zhitomrak_say_listed(zhitomrak_list(file, size, text, sizeof text), &said);
    printf("list: %s\n", said.bytes);
    list(file, size);
    file[size - 1] ^= 1; /* a damaged dew point */
    list(file, size);
    return 0;
}
