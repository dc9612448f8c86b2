/* The header in each dialect of C and C++: every inline function is called, with constants of each kind that the header defines. */
#include "zhitomrak.h"

int header_is_plain(zhitomrak_store *store, uint8_t *buffer, const zhitomrak_record *records);

static size_t says_all(zhitomrak_heard heard)
{
    static const zhitomrak_noted noted = {0, 0, 0, 0};
    static const zhitomrak_refusal asked = {0, 0, 0};
    static const zhitomrak_file read = {0, 0, 0};
    static const zhitomrak_written written = {0, 0, 0};
    static const zhitomrak_placed placed = {0, 0, 0, 0};
    static const zhitomrak_listed listed = {0, 0};
    zhitomrak_sentence s;
    return zhitomrak_say_heard(heard, &s) + zhitomrak_say_noted(noted, &s) + zhitomrak_say_asked(asked, &s) + zhitomrak_say_read(read, &s) +
           zhitomrak_say_written(written, &s) + zhitomrak_say_placed(placed, &s) + zhitomrak_say_listed(listed, &s);
}

int header_is_plain(zhitomrak_store *store, uint8_t *buffer, const zhitomrak_record *records)
{
    const char *text = zhitomrak_refusal_text(ZHITOMRAK_REFUSED_LATE);
    uint32_t wrong = text == NULL || ZHITOMRAK_VERSION != 100u;
    wrong |= zhitomrak_hear_message(store, zhitomrak_message_of(ZHITOMRAK_CHANNEL_WET_BULB, ZHITOMRAK_STATE_ICE, 1, -1.5f, 0)).number;
    wrong |= zhitomrak_hear_message(store, zhitomrak_message_barometer(1, 1013.2f)).number;
    wrong |= zhitomrak_hear_message(store, zhitomrak_message_wheelhouse(1, 18.5f)).number;
    wrong |= zhitomrak_hear_message(store, zhitomrak_message_apparent_wind(1, 8.5f, 30)).number;
    wrong |= zhitomrak_hear_message(store, zhitomrak_message_ship_motion(1, 10.5f, 45)).number;
    wrong |= zhitomrak_hear_message(store, zhitomrak_message_dry_bulb(1, 12.5f)).number;
    wrong |= zhitomrak_hear_message(store, zhitomrak_message_wet_bulb(1, 9.5f, ZHITOMRAK_STATE_WATER)).number;
    wrong |= zhitomrak_write(buffer, ZHITOMRAK_FILE_MAX_BYTES, records, ZHITOMRAK_FILE_MAX_RECORDS).number;
    wrong |= says_all(zhitomrak_hear(store, buffer, ZHITOMRAK_MESSAGE_BYTES)) == 0;
    return wrong != 0;
}
