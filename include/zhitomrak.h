/* Zhitomrak: a ship's weather station whose every figure is proved. Link libzhitomrak.a (`pkg-config --libs zhitomrak`).
 *
 * Each function's promise stands in its comment, is proved for the compiled code's source for all arguments whatever, and allows a
 * single answer. (Functions that are `static inline` here are plain C and are tested; they make messages, hand on pointers and name
 * refusals, and work no figure.) Numbers of refusals are those of document 01, "Numbered refusals", and from 19 on those of document 02:
 * docs/REFUSALS.md lists them. 0 says that nothing was refused. A refusal gives no figure: figures beside one are 0. All quantities are
 * whole numbers of the last place that document 01 shows; a field's comment names its unit.
 *
 * What the caller owes, and the library cannot see:
 *   1. A pointer to a store is not null, is aligned for uint64_t, and points to the ZHITOMRAK_STORE_WORDS words of a zhitomrak_store
 *      that may be read, and written where the pointer is not const. So of every other pointer to a struct declared here.
 *   2. A pointer with a length or a number is not null (also where that is 0), is aligned for its type, and points to that many bytes,
 *      words or records that may be read, and written where the pointer is not const; a length is at most PTRDIFF_MAX.
 *   3. During a call nothing else writes what the pointers of that call point to, and nothing else reads what the call may write. So
 *      what a call may write overlaps nothing else of that call; what it only reads may overlap. Two threads may ask one store at once,
 *      and none may open, hear or note then; on stores of their own threads do as they like.
 *   4. The functions are called with the C calling convention of x86-64 Linux, with the types declared here.
 * Nothing is owed beyond that: any block, opened or not, any bytes, any settings, any entry, any minute, any records and any count get
 * the answer that the comment names. The library keeps nothing between calls, allocates nothing, and calls nothing but memcpy,
 * memset and memmove.
 *
 * The header is C99 and later, and C++11 and later. */
#ifndef ZHITOMRAK_H
#define ZHITOMRAK_H

#include <stddef.h>
#include <stdint.h>
#include <string.h>

#ifdef __cplusplus
#define ZHITOMRAK_AS(type, value) static_cast<type>(value)
extern "C" {
#else
#define ZHITOMRAK_AS(type, value) ((type)(value))
#endif

/* ---- the version ---- */

#define ZHITOMRAK_VERSION_MAJOR 0
#define ZHITOMRAK_VERSION_MINOR 1
#define ZHITOMRAK_VERSION_PATCH 0
#define ZHITOMRAK_VERSION_TEXT "0.1.0"

/* 10000 for the major number, 100 for the minor, 1 for the patch. */
#define ZHITOMRAK_VERSION (10000u * ZHITOMRAK_VERSION_MAJOR + 100u * ZHITOMRAK_VERSION_MINOR + ZHITOMRAK_VERSION_PATCH)

/* The version of the library that is linked. It is ZHITOMRAK_VERSION where header and library belong together. */
uint32_t zhitomrak_version(void);

/* ---- numbers ---- */

/* Refusals, by their numbers. */
#define ZHITOMRAK_REFUSED_LENGTH 1u
#define ZHITOMRAK_REFUSED_CHANNEL 2u
#define ZHITOMRAK_REFUSED_NOT_ZERO 3u
#define ZHITOMRAK_REFUSED_STATE 4u
#define ZHITOMRAK_REFUSED_MINUTE 5u
#define ZHITOMRAK_REFUSED_NOT_FINITE 6u
#define ZHITOMRAK_REFUSED_LIMITS 7u
#define ZHITOMRAK_REFUSED_REPEATED 8u
#define ZHITOMRAK_REFUSED_SETTING 9u
#define ZHITOMRAK_REFUSED_CERTIFICATE 10u
#define ZHITOMRAK_REFUSED_MISSING 11u
#define ZHITOMRAK_REFUSED_OUTSIDE_CERTIFICATE 12u
#define ZHITOMRAK_REFUSED_WET_ABOVE_DRY 13u
#define ZHITOMRAK_REFUSED_NO_THREE_HOURS 14u
#define ZHITOMRAK_REFUSED_TOO_DRY 15u
#define ZHITOMRAK_REFUSED_RECORD 16u
#define ZHITOMRAK_REFUSED_TOO_SHORT 17u
#define ZHITOMRAK_REFUSED_BROKEN 18u
#define ZHITOMRAK_REFUSED_LATE 19u
#define ZHITOMRAK_REFUSED_TOO_WARM_FOR_ICE 20u
#define ZHITOMRAK_REFUSED_STATE_UNKNOWN 21u
#define ZHITOMRAK_REFUSED_ABOVE_SATURATION 22u
#define ZHITOMRAK_REFUSED_DIAL 23u
#define ZHITOMRAK_REFUSED_RATE 24u
#define ZHITOMRAK_REFUSED_ANEMOMETER 25u

/* Two that are none of the documents'. There is no such record to take out; and what a block that was never opened answers to every
 * message, entry and question, and then it stays as it was: zeroed memory, or memory whose openings were all refused. A store is known
 * by a mark in its first word, which zhitomrak_open writes there; so other memory is no store either, unless that word of it happens to
 * be the mark. */
#define ZHITOMRAK_NO_RECORD 254u
#define ZHITOMRAK_NO_STORE 255u

/* Channels. */
#define ZHITOMRAK_CHANNEL_BAROMETER 0u
#define ZHITOMRAK_CHANNEL_WHEELHOUSE 1u
#define ZHITOMRAK_CHANNEL_APPARENT_WIND 2u
#define ZHITOMRAK_CHANNEL_SHIP_MOTION 3u
#define ZHITOMRAK_CHANNEL_DRY_BULB 4u
#define ZHITOMRAK_CHANNEL_WET_BULB 5u
#define ZHITOMRAK_CHANNELS 6u

/* Units of the barometer, and of readings. */
#define ZHITOMRAK_UNIT_HPA 0u
#define ZHITOMRAK_UNIT_MM_HG 1u
#define ZHITOMRAK_UNIT_CELSIUS 2u
#define ZHITOMRAK_UNIT_METRES_PER_SECOND 3u
#define ZHITOMRAK_UNIT_KNOTS 4u

/* What is on the wet bulb. */
#define ZHITOMRAK_STATE_WATER 0u
#define ZHITOMRAK_STATE_ICE 1u
#define ZHITOMRAK_STATE_UNKNOWN 2u

/* Kinds of records. */
#define ZHITOMRAK_KIND_PRESSURE 1u
#define ZHITOMRAK_KIND_TENDENCY 2u
#define ZHITOMRAK_KIND_WIND 3u
#define ZHITOMRAK_KIND_HUMIDITY 4u

/* Sizes. A file never is longer, nor its listing, nor a sentence with the zero behind it. */
#define ZHITOMRAK_STORE_WORDS 1609
#define ZHITOMRAK_CERTIFICATE_MAX_POINTS 16
#define ZHITOMRAK_ANEMOMETER_MAX_POINTS 20
#define ZHITOMRAK_MESSAGE_BYTES 16
#define ZHITOMRAK_KEPT_MINUTES 256
#define ZHITOMRAK_LAST_MINUTE 16777215u
#define ZHITOMRAK_COUNTS 256
#define ZHITOMRAK_FILE_MAX_RECORDS 48
#define ZHITOMRAK_FILE_MAX_BYTES 820
#define ZHITOMRAK_LISTING_MAX_BYTES 2264
#define ZHITOMRAK_SENTENCE_MAX_BYTES 160

/* ---- the store ---- */

/* A store lives in a block that the caller lends: settings, and six channels of 256 minutes. What the words mean is the library's
 * affair; they may be copied, kept in a file and brought back. */
typedef struct {
    uint64_t words[ZHITOMRAK_STORE_WORDS];
} zhitomrak_store;

/* A point of the barometer's certificate, in tenths of the barometer's unit. */
typedef struct {
    int32_t reading;
    int32_t correction;
} zhitomrak_point;

/* A point of the hand anemometer's certificate. */
typedef struct {
    int32_t rate;  /* whole divisions a second: 0 to 9999 */
    int32_t speed; /* tenths of m/s: 0 to 750 */
} zhitomrak_anemometer_point;

/* The hand anemometer's certificate. */
typedef struct {
    uint32_t count; /* how many points it is: 2 to 20, or 0 where the ship has no such instrument */
    zhitomrak_anemometer_point points[ZHITOMRAK_ANEMOMETER_MAX_POINTS]; /* rates and speeds strictly rising */
} zhitomrak_anemometer;

typedef struct {
    uint32_t unit;         /* of the barometer: ZHITOMRAK_UNIT_HPA or ZHITOMRAK_UNIT_MM_HG */
    int32_t height;        /* of the barometer: 0 to 600 tenths of a metre */
    int32_t difference;    /* of the sea level: -300 to 300 tenths of a metre, negative where the closed sea lies lower */
    int32_t coefficient;   /* of temperature: -50 to 50 thousandths of the unit per degree */
    int32_t psychrometer;  /* coefficient A: 500 to 1000 millionths, 662 when the passport gives none */
    uint32_t count;        /* how many points are the certificate: 2 to 16 */
    zhitomrak_point points[ZHITOMRAK_CERTIFICATE_MAX_POINTS]; /* readings within the barometer's limits and strictly rising, corrections
                                                                 -50 to 50 */
    zhitomrak_anemometer anemometer; /* all zeros: none */
} zhitomrak_settings;

/* Opens a store: 0, and the block starts empty with these settings, whatever it held before. Or the first of these whose reason
 * holds, and the block stays as it was: 9, a setting other than the certificates is outside its limits (a unit that is none, too);
 * 10, the barometer's certificate breaks its rules; 25, the hand anemometer's does, or its speeds leave 0 to 750. So a store that was
 * open is still open then, and a block that was never opened is still none: it answers ZHITOMRAK_NO_STORE. */
uint32_t zhitomrak_open(zhitomrak_store *store, const zhitomrak_settings *settings);

/* The settings that a store was opened with: 0, and points behind the last of a certificate are zeros; or ZHITOMRAK_NO_STORE, and what
 * is lent stays as it was. Opening with them gives the same empty store. */
uint32_t zhitomrak_settings_of(const zhitomrak_store *store, zhitomrak_settings *settings);

/* ---- hearing ---- */

/* A message of instruments, ready to be heard. */
typedef struct {
    uint8_t bytes[ZHITOMRAK_MESSAGE_BYTES];
} zhitomrak_message;

/* A message of any channel: its state (the wet bulb's, else 0), its minute, and one or two values. */
static inline zhitomrak_message zhitomrak_message_of(uint32_t channel, uint32_t state, uint32_t minute, float first, float second)
{
    zhitomrak_message message;
    const float values[2] = {first, second};
    uint32_t words[3];
    size_t i;
    words[0] = minute;
    memcpy(words + 1, values, sizeof values);
    memset(&message, 0, sizeof message);
    message.bytes[0] = ZHITOMRAK_AS(uint8_t, channel > 255u ? 255u : channel);
    message.bytes[1] = ZHITOMRAK_AS(uint8_t, state > 255u ? 255u : state);
    for (i = 0; i < 12; i++)
        message.bytes[4 + i] = ZHITOMRAK_AS(uint8_t, words[i / 4] >> (8 * (i % 4)) & 255u);
    return message;
}

/* The barometer's reading, in its unit. */
static inline zhitomrak_message zhitomrak_message_barometer(uint32_t minute, float pressure)
{
    return zhitomrak_message_of(ZHITOMRAK_CHANNEL_BAROMETER, 0, minute, pressure, 0);
}

/* The wheelhouse thermometer, in degrees Celsius. */
static inline zhitomrak_message zhitomrak_message_wheelhouse(uint32_t minute, float celsius)
{
    return zhitomrak_message_of(ZHITOMRAK_CHANNEL_WHEELHOUSE, 0, minute, celsius, 0);
}

/* The apparent wind: its speed, and the degrees clockwise from the bow that it comes from. */
static inline zhitomrak_message zhitomrak_message_apparent_wind(uint32_t minute, float metres_per_second, float degrees_from_bow)
{
    return zhitomrak_message_of(ZHITOMRAK_CHANNEL_APPARENT_WIND, 0, minute, metres_per_second, degrees_from_bow);
}

/* The ship's speed and course. */
static inline zhitomrak_message zhitomrak_message_ship_motion(uint32_t minute, float knots, float degrees)
{
    return zhitomrak_message_of(ZHITOMRAK_CHANNEL_SHIP_MOTION, 0, minute, knots, degrees);
}

/* The dry bulb, and the wet bulb with what is on it, in degrees Celsius. */
static inline zhitomrak_message zhitomrak_message_dry_bulb(uint32_t minute, float celsius)
{
    return zhitomrak_message_of(ZHITOMRAK_CHANNEL_DRY_BULB, 0, minute, celsius, 0);
}

static inline zhitomrak_message zhitomrak_message_wet_bulb(uint32_t minute, float celsius, uint32_t state)
{
    return zhitomrak_message_of(ZHITOMRAK_CHANNEL_WET_BULB, state, minute, celsius, 0);
}

/* What hearing a message came to. */
typedef struct {
    uint32_t number; /* 0: heard */
    uint64_t late;   /* of 19: how many minutes the message is earlier than its channel's newest; else 0 */
} zhitomrak_heard;

/* Hears a message of instruments, 16 bytes: 0, and its reading is kept; or the first of 1 to 8 and 19 whose reason holds, and the
 * block stays as it was. 1, not 16 bytes; 2, channel above 5; 3, a byte that must be zero isn't; 4, the wet bulb's state is above 2;
 * 5, minute above 16777215; 6, infinite or not a number; 7, outside limits; 8, the minute is that of the channel's newest reading; 19, it is
 * earlier, with the minutes between. A channel's first message gets neither 8 nor 19. Before all of them: ZHITOMRAK_NO_STORE, the
 * block was never opened, and stays as it was too. What is kept are tenths and whole degrees, of an exact half the even one, and
 * limits are those of what is kept. Byte 1 of a wet bulb's message is its state, which is kept with the reading: 0 water, 1 ice, 2
 * unknown. On every other channel that byte must be zero. */
zhitomrak_heard zhitomrak_hear(zhitomrak_store *store, const uint8_t *message, size_t length);

/* The same of a message that was built here. */
static inline zhitomrak_heard zhitomrak_hear_message(zhitomrak_store *store, zhitomrak_message message)
{
    return zhitomrak_hear(store, message.bytes, sizeof message.bytes);
}

/* How many messages came to each number: those that were heard in place 0. */
typedef struct {
    uint64_t of[ZHITOMRAK_COUNTS];
} zhitomrak_counts;

/* Cuts the bytes into messages of 16, hears each in order as zhitomrak_hear does, and adds one to the count of the number that it came
 * to (a count at its largest stays). Bytes at the end that are too few for a message are heard too, and refused 1. */
void zhitomrak_hear_all(zhitomrak_store *store, const uint8_t *bytes, size_t length, zhitomrak_counts *counts);

/* The wind as a mate notes it by the hand anemometer. */
typedef struct {
    uint32_t minute;
    uint32_t direction; /* that the apparent wind comes from, by the compass: 0 to 360 whole degrees */
    uint32_t first;     /* the dial before: 0 to 9999 divisions */
    uint32_t second;    /* the dial after; below the first it has passed 9999, once */
    uint32_t seconds;   /* between the two: 1 to 600 */
} zhitomrak_entry;

/* What noting an entry came to. */
typedef struct {
    uint32_t number;  /* 0: noted */
    uint32_t channel; /* of 11, else 0 */
    uint32_t minute;  /* of 11, else 0 */
    uint64_t late;    /* of 19: how many minutes the entry is earlier than channel 2's newest; else 0 */
} zhitomrak_noted;

/* Notes an entry of the hand anemometer: 0, and its wind is kept as the apparent wind of its minute, as if a message of channel 2 had
 * said it; or the first of these whose reason holds, and the block stays as it was. 5, minute above 16777215; 7, direction above 360;
 * 8, the minute is that of channel 2's newest; 19, it is earlier, with the minutes between; 23, a dial above 9999, or seconds not
 * within 1 to 600; 11, channel 3, the ship's motion, has no reading at that minute, or keeps it no longer; 24, the rate lies outside
 * the certificate, or the store has none. Channel 2's first gets neither 8 nor 19. Before all of them: ZHITOMRAK_NO_STORE, the block
 * was never opened, and stays as it was too. The rate is the dial's divisions over the seconds, exactly; the speed is on the straight
 * line between the two neighbouring points of the certificate, rounded once to 0.1 m/s, halves up; both ends belong to it. The
 * direction kept is the compass direction less the course at that minute, 360 added where that is negative, and 360 kept as 0. (Of a
 * block that has a store's mark and that no zhitomrak_open made a speed outside 0 to 750 is 24 too.) */
zhitomrak_noted zhitomrak_note(zhitomrak_store *store, zhitomrak_entry entry);

/* ---- questions: asking changes nothing; each can also be answered ZHITOMRAK_NO_STORE ---- */

/* Why a question is refused: 5, minute above 16777215; 11, a reading is absent or no longer kept (channel and minute say which); 12,
 * the barometer's reading lies outside the certificate (minute says when); 13, wet bulb above dry bulb, with water on it; 14, tendency
 * asked for a minute below 180; 15, vapour pressure below 0.19 hPa; 20, ice on the wet bulb, or a state unknown, and the wet bulb above
 * 0.0 degrees; 21, state unknown, and the dry bulb not within -9.9 to 0.0 degrees; 22, vapour pressure above saturation over water at
 * the dry bulb. The tests stand in this order: 5, 14, 11 by minute and channel, 12 by minute, 13, 20, 21, 22, 15. Before all of them:
 * ZHITOMRAK_NO_STORE, the block was never opened. (Of a block that has a store's mark and that no zhitomrak_open made, humidity can
 * also be refused 7, between 12 and 13, and a wet bulb whose state is above 2 is absent, 11.) */
typedef struct {
    uint32_t number;  /* 0: answered */
    uint32_t channel; /* of 11, else 0 */
    uint32_t minute;  /* of 11 and 12, else 0 */
} zhitomrak_refusal;

typedef struct {
    zhitomrak_refusal refusal;
    int64_t pressure; /* tenths of hPa */
} zhitomrak_pressure_answer;

/* The pressure at sea level at a minute; or 5, 11, 12. */
zhitomrak_pressure_answer zhitomrak_pressure(const zhitomrak_store *store, uint32_t minute);

typedef struct {
    zhitomrak_refusal refusal;
    int64_t change;  /* tenths of hPa */
    uint64_t absent; /* minutes, 0 to 179 */
} zhitomrak_tendency_answer;

/* The pressure at sea level at a minute less that 180 minutes before, and how many of the 179 minutes strictly between have no
 * barometer reading; or 5, 14, 11, 12. */
zhitomrak_tendency_answer zhitomrak_tendency(const zhitomrak_store *store, uint32_t minute);

typedef struct {
    zhitomrak_refusal refusal;
    uint32_t speed;     /* tenths of m/s */
    uint32_t direction; /* degrees that it comes from, 1 to 360; 0 in a calm, where the speed is 0 */
} zhitomrak_wind_answer;

/* The true wind at a minute; or 5, 11. */
zhitomrak_wind_answer zhitomrak_wind(const zhitomrak_store *store, uint32_t minute);

typedef struct {
    zhitomrak_refusal refusal;
    uint32_t vapour_pressure;   /* hundredths of hPa */
    uint32_t saturation;        /* over water at the dry bulb, hundredths of hPa */
    uint32_t deficit;           /* hundredths of hPa */
    uint32_t relative_humidity; /* percent */
    int32_t dew_point;          /* tenths of a degree Celsius */
} zhitomrak_humidity_answer;

/* Humidity at a minute, by the psychrometer and what is on its wet bulb; or 5, 11, 12, 13, 20, 21, 22, 15. Saturation, deficit,
 * relative humidity and dew point are over water whatever is on it. With ice the wet bulb may stand above the dry bulb. */
zhitomrak_humidity_answer zhitomrak_humidity(const zhitomrak_store *store, uint32_t minute);

/* ---- what is kept: asking changes nothing; each can also be answered ZHITOMRAK_NO_STORE ---- */

typedef struct {
    uint32_t number; /* 0, 2 or 11 */
    uint64_t minute; /* 0 beside a refusal; at most 16777215, but of a block that no zhitomrak_open made */
} zhitomrak_newest_answer;

/* The newest minute of a channel; or 2, channel above 5; 11, nothing is heard of it yet. */
zhitomrak_newest_answer zhitomrak_newest(const zhitomrak_store *store, uint32_t channel);

typedef struct {
    zhitomrak_refusal refusal; /* 0, 2, 5 or 11 */
    uint32_t channel;
    uint32_t unit;   /* of the first figure: ZHITOMRAK_UNIT_HPA to ZHITOMRAK_UNIT_KNOTS */
    int32_t first;   /* tenths of that unit */
    uint32_t second; /* of channels 2 and 3 whole degrees, of channel 5 the state, else 0 */
} zhitomrak_reading_answer;

/* The reading of a channel's minute as it is kept; or 2, channel above 5; 5, minute above 16777215; 11, there is none, or none any
 * more. */
zhitomrak_reading_answer zhitomrak_reading(const zhitomrak_store *store, uint32_t channel, uint32_t minute);

/* Which minutes from the first on have a reading, as many as bytes are lent: 1, else 0, and 0 above minute 16777215. Or 2, channel
 * above 5, and every byte stays. Answers 0 where nothing was refused. */
uint32_t zhitomrak_stretch(const zhitomrak_store *store, uint32_t channel, uint32_t first, uint8_t *minutes, size_t count);

/* ---- watch files ---- */

/* A record: its kind, its minute, and the figures of its kind, in the units of the answers above. Figures that a kind has not are told
 * as 0, and not looked at. */
typedef struct {
    uint32_t kind;
    uint32_t minute;
    union {
        struct {
            int32_t pressure;
        } pressure;
        struct {
            int32_t change;
            int32_t absent;
        } tendency;
        struct {
            int32_t speed;
            int32_t direction;
        } wind;
        struct {
            int32_t vapour_pressure;
            int32_t saturation;
            int32_t deficit;
            int32_t relative_humidity;
            int32_t dew_point;
        } humidity;
        int32_t figures[5];
    } of;
} zhitomrak_record;

/* The record that the answer to a question makes, by its kind and minute: number 0. Or 16, there is no such kind; or the question's
 * refusal (or 16, a figure does not fit its field, which of a store that zhitomrak_open made does not happen); and the record stays as
 * it was. */
zhitomrak_refusal zhitomrak_record_of(const zhitomrak_store *store, uint32_t kind, uint32_t minute, zhitomrak_record *record);

typedef struct {
    uint32_t number; /* 0, or 18 */
    size_t place;    /* of 18, else 0 */
    size_t count;    /* how many records, 0 beside 18 */
} zhitomrak_file;

/* Reads a watch file: how many records it has; or 18, file broken, with the place: the first byte of the first wrong field, the file's
 * length where a field is cut short, or the first extra byte. */
zhitomrak_file zhitomrak_read(const uint8_t *file, size_t length);

/* The record with this index, counted from 0, of a file that zhitomrak_read found good. Of any other bytes it is what stands there: the
 * row of the contents with this index, and the body of its kind at the offset that the row names, whether their fields are right or
 * not. All is 0 where the contents do not count so many, the kind is none, or row or body do not lie in the file. */
zhitomrak_record zhitomrak_record_at(const uint8_t *file, size_t length, size_t index);

typedef struct {
    uint32_t number; /* 0, 16 or 17 */
    size_t index;    /* of 16, else 0 */
    size_t bytes;    /* of the file that was written, or needed where 17, else 0 */
} zhitomrak_written;

/* Writes records as a watch file at the start of the buffer, and leaves the bytes behind it. Or the first of these whose reason holds,
 * and every byte stays: 16, a record breaks the file rules, or is the 49th, with the index of the first such, from 0 (a kind that is
 * none and a figure that does not fit its bytes break the rules); 17, the buffer is too short, with the bytes needed. The records are
 * lent as words of 32 bits, seven a record in the order of its fields; words that are too few for one more record are not looked at. */
zhitomrak_written zhitomrak_write_words(uint8_t *buffer, size_t length, const uint32_t *records, size_t words);

/* The same of `count` records, none of which need be there where that is 0. No more than the first 49 are looked at. */
static inline zhitomrak_written zhitomrak_write(uint8_t *buffer, size_t length, const zhitomrak_record *records, size_t count)
{
    static const uint32_t none = 0;
    const size_t some = count < ZHITOMRAK_FILE_MAX_RECORDS + 1 ? count : ZHITOMRAK_FILE_MAX_RECORDS + 1;
    const uint32_t *words = some == 0 ? &none : ZHITOMRAK_AS(const uint32_t *, ZHITOMRAK_AS(const void *, records));
    return zhitomrak_write_words(buffer, length, words, some * (sizeof *records / sizeof *words));
}

typedef struct {
    uint32_t number; /* 0, 16, 17, 18 or ZHITOMRAK_NO_RECORD */
    size_t index;    /* of 16, else 0 */
    size_t place;    /* of 18, else 0 */
    size_t bytes;    /* of the new file, or needed where 17, else 0 */
} zhitomrak_placed;

/* Puts a record in its place, by minute, then kind, in the watch file that the first `size` bytes of the buffer are (all of them, where
 * there are fewer); one of the same minute and kind is replaced. The new file stands at the buffer's start, and bytes behind it stay.
 * Or the first of these whose reason holds, and every byte stays: 18, that file is broken, with the place; 16, the record breaks the
 * file rules, with the index that it would have, or there would be 49, with 48; 17, the buffer is too short, with the bytes needed. (A
 * record of no kind has the index of a pressure of its minute.) A file without a record is what zhitomrak_write makes of none. */
zhitomrak_placed zhitomrak_place(uint8_t *buffer, size_t length, size_t size, const zhitomrak_record *record);

/* Takes the record of this kind and minute out of that file: the new one stands at the buffer's start, and bytes behind it stay. Or 18,
 * that file is broken, with the place; or ZHITOMRAK_NO_RECORD, it has none such; and every byte stays. */
zhitomrak_placed zhitomrak_take_out(uint8_t *buffer, size_t length, size_t size, uint32_t kind, uint32_t minute);

typedef struct {
    uint32_t number; /* 0 or 17 */
    size_t bytes;    /* of the text that was put, or needed where 17 */
} zhitomrak_listed;

/* Lists a watch file: puts its text at the start of the lent bytes, and leaves those behind it: `WT 1 2` with the number of records, and
 * a line for each; of a broken file one line, `refused 18 at` and the place. Or 17, fewer bytes are lent than this listing has, with the bytes needed, and every byte stays. */
zhitomrak_listed zhitomrak_list(const uint8_t *file, size_t length, uint8_t *text, size_t room);

/* ---- what people read ---- */

/* A sentence, in UTF-8, with a zero behind it and zeros to the end. */
typedef struct {
    char bytes[ZHITOMRAK_SENTENCE_MAX_BYTES];
} zhitomrak_sentence;

/* Each puts a sentence and gives its length: the figures with sign, point and unit, or why there are none. `1005.7 hPa at sea level`;
 * `-0.1 hPa in three hours, 11 minutes without a reading`; `4.5 m/s from 166` and the degree sign, or `calm`; `the barometer has no
 * reading at minute 820`. A reading has the unit of its channel, the barometer's is mm Hg where its unit is not 0, and a wet bulb's state
 * is unknown where it is neither 0 nor 1; one of a channel that is none is said as a temperature. */
size_t zhitomrak_say_pressure(zhitomrak_pressure_answer answer, zhitomrak_sentence *sentence);
size_t zhitomrak_say_tendency(zhitomrak_tendency_answer answer, zhitomrak_sentence *sentence);
size_t zhitomrak_say_wind(zhitomrak_wind_answer answer, zhitomrak_sentence *sentence);
size_t zhitomrak_say_humidity(zhitomrak_humidity_answer answer, zhitomrak_sentence *sentence);
size_t zhitomrak_say_reading(zhitomrak_reading_answer answer, zhitomrak_sentence *sentence);

/* Any refusal by its number and what it also returns, in the order of docs/REFUSALS.md: 11 channel and minute; 12 the minute; 16 an
 * index; 17 bytes; 18 a place; 19 minutes. What a number does not return is not looked at. */
size_t zhitomrak_say_refusal(uint32_t number, uint64_t first, uint64_t second, zhitomrak_sentence *sentence);

/* The same of what each call told; `nothing is refused` where its number is 0. */
static inline size_t zhitomrak_say_heard(zhitomrak_heard told, zhitomrak_sentence *sentence)
{
    return zhitomrak_say_refusal(told.number, told.late, 0, sentence);
}

static inline size_t zhitomrak_say_noted(zhitomrak_noted told, zhitomrak_sentence *sentence)
{
    if (told.number == ZHITOMRAK_REFUSED_MISSING)
        return zhitomrak_say_refusal(told.number, told.channel, told.minute, sentence);
    return zhitomrak_say_refusal(told.number, told.late, 0, sentence);
}

static inline size_t zhitomrak_say_asked(zhitomrak_refusal told, zhitomrak_sentence *sentence)
{
    if (told.number == ZHITOMRAK_REFUSED_MISSING)
        return zhitomrak_say_refusal(told.number, told.channel, told.minute, sentence);
    return zhitomrak_say_refusal(told.number, told.minute, 0, sentence);
}

static inline size_t zhitomrak_say_read(zhitomrak_file told, zhitomrak_sentence *sentence)
{
    return zhitomrak_say_refusal(told.number, told.place, 0, sentence);
}

static inline size_t zhitomrak_say_written(zhitomrak_written told, zhitomrak_sentence *sentence)
{
    return zhitomrak_say_refusal(told.number, told.number == ZHITOMRAK_REFUSED_RECORD ? told.index : told.bytes, 0, sentence);
}

/* Index, place and bytes are 0 but for the one that the number returns. */
static inline size_t zhitomrak_say_placed(zhitomrak_placed told, zhitomrak_sentence *sentence)
{
    return zhitomrak_say_refusal(told.number, told.index + told.place + told.bytes, 0, sentence);
}

static inline size_t zhitomrak_say_listed(zhitomrak_listed told, zhitomrak_sentence *sentence)
{
    return zhitomrak_say_refusal(told.number, told.bytes, 0, sentence);
}

/* What a number says, without what it also returns; null where no refusal has it. */
static inline const char *zhitomrak_refusal_text(uint32_t number)
{
    switch (number) {
    case 1u: return "the message is not 16 bytes";
    case 2u: return "the channel is above 5";
    case 3u: return "a byte of the message that must be zero is not";
    case 4u: return "the state of the wet bulb is above 2";
    case 5u: return "the minute is above 16777215";
    case 6u: return "a value is infinite or not a number";
    case 7u: return "a value is outside its limits";
    case 8u: return "the minute is that of the channel's newest reading";
    case 9u: return "a setting is outside its limits";
    case 10u: return "the barometer's certificate breaks its rules";
    case 11u: return "a reading is absent or no longer kept";
    case 12u: return "a reading of the barometer is outside its certificate";
    case 13u: return "the wet bulb is above the dry bulb, with water on it";
    case 14u: return "there are no three hours before the minute";
    case 15u: return "the vapour pressure is below 0.19 hPa";
    case 16u: return "a record breaks the rules of the file, or is one too many";
    case 17u: return "the buffer is too short";
    case 18u: return "the file is broken";
    case 19u: return "the minute is earlier than the channel's newest reading";
    case 20u: return "the wet bulb is above 0.0 \302\260C, and not with water on it";
    case 21u: return "the wet bulb's state is unknown, and the dry bulb not within -9.9 to 0.0 \302\260C";
    case 22u: return "the vapour pressure is above saturation over water at the dry bulb";
    case 23u: return "a dial is above 9999, or the seconds are not 1 to 600";
    case 24u: return "the rate is outside the anemometer's certificate, or there is none";
    case 25u: return "the anemometer's certificate breaks its rules";
    case 254u: return "there is no such record";
    case 255u: return "the store was never opened";
    default: return NULL;
    }
}

/* ---- the types as the library has them ---- */

#if defined(__cplusplus)
#define ZHITOMRAK_IS(name, truth) static_assert(truth, #name)
#elif defined(__STDC_VERSION__) && __STDC_VERSION__ >= 201112L
#define ZHITOMRAK_IS(name, truth) _Static_assert(truth, #name)
#else
#define ZHITOMRAK_IS(name, truth) typedef char zhitomrak_is_##name[(truth) ? 1 : -1]
#endif

ZHITOMRAK_IS(store_size, sizeof(zhitomrak_store) == 12872);
ZHITOMRAK_IS(store_words, offsetof(zhitomrak_store, words) == 0);
ZHITOMRAK_IS(point_size, sizeof(zhitomrak_point) == 8);
ZHITOMRAK_IS(point_reading, offsetof(zhitomrak_point, reading) == 0);
ZHITOMRAK_IS(point_correction, offsetof(zhitomrak_point, correction) == 4);
ZHITOMRAK_IS(anemometer_point_size, sizeof(zhitomrak_anemometer_point) == 8);
ZHITOMRAK_IS(anemometer_point_rate, offsetof(zhitomrak_anemometer_point, rate) == 0);
ZHITOMRAK_IS(anemometer_point_speed, offsetof(zhitomrak_anemometer_point, speed) == 4);
ZHITOMRAK_IS(anemometer_size, sizeof(zhitomrak_anemometer) == 164);
ZHITOMRAK_IS(anemometer_count, offsetof(zhitomrak_anemometer, count) == 0);
ZHITOMRAK_IS(anemometer_points, offsetof(zhitomrak_anemometer, points) == 4);
ZHITOMRAK_IS(settings_size, sizeof(zhitomrak_settings) == 316);
ZHITOMRAK_IS(settings_unit, offsetof(zhitomrak_settings, unit) == 0);
ZHITOMRAK_IS(settings_height, offsetof(zhitomrak_settings, height) == 4);
ZHITOMRAK_IS(settings_difference, offsetof(zhitomrak_settings, difference) == 8);
ZHITOMRAK_IS(settings_coefficient, offsetof(zhitomrak_settings, coefficient) == 12);
ZHITOMRAK_IS(settings_psychrometer, offsetof(zhitomrak_settings, psychrometer) == 16);
ZHITOMRAK_IS(settings_count, offsetof(zhitomrak_settings, count) == 20);
ZHITOMRAK_IS(settings_points, offsetof(zhitomrak_settings, points) == 24);
ZHITOMRAK_IS(settings_anemometer, offsetof(zhitomrak_settings, anemometer) == 152);
ZHITOMRAK_IS(message_size, sizeof(zhitomrak_message) == 16);
ZHITOMRAK_IS(message_bytes, offsetof(zhitomrak_message, bytes) == 0);
ZHITOMRAK_IS(heard_size, sizeof(zhitomrak_heard) == 16);
ZHITOMRAK_IS(heard_number, offsetof(zhitomrak_heard, number) == 0);
ZHITOMRAK_IS(heard_late, offsetof(zhitomrak_heard, late) == 8);
ZHITOMRAK_IS(counts_size, sizeof(zhitomrak_counts) == 2048);
ZHITOMRAK_IS(counts_of, offsetof(zhitomrak_counts, of) == 0);
ZHITOMRAK_IS(entry_size, sizeof(zhitomrak_entry) == 20);
ZHITOMRAK_IS(entry_minute, offsetof(zhitomrak_entry, minute) == 0);
ZHITOMRAK_IS(entry_direction, offsetof(zhitomrak_entry, direction) == 4);
ZHITOMRAK_IS(entry_first, offsetof(zhitomrak_entry, first) == 8);
ZHITOMRAK_IS(entry_second, offsetof(zhitomrak_entry, second) == 12);
ZHITOMRAK_IS(entry_seconds, offsetof(zhitomrak_entry, seconds) == 16);
ZHITOMRAK_IS(noted_size, sizeof(zhitomrak_noted) == 24);
ZHITOMRAK_IS(noted_number, offsetof(zhitomrak_noted, number) == 0);
ZHITOMRAK_IS(noted_channel, offsetof(zhitomrak_noted, channel) == 4);
ZHITOMRAK_IS(noted_minute, offsetof(zhitomrak_noted, minute) == 8);
ZHITOMRAK_IS(noted_late, offsetof(zhitomrak_noted, late) == 16);
ZHITOMRAK_IS(refusal_size, sizeof(zhitomrak_refusal) == 12);
ZHITOMRAK_IS(refusal_number, offsetof(zhitomrak_refusal, number) == 0);
ZHITOMRAK_IS(refusal_channel, offsetof(zhitomrak_refusal, channel) == 4);
ZHITOMRAK_IS(refusal_minute, offsetof(zhitomrak_refusal, minute) == 8);
ZHITOMRAK_IS(pressure_answer_size, sizeof(zhitomrak_pressure_answer) == 24);
ZHITOMRAK_IS(pressure_answer_refusal, offsetof(zhitomrak_pressure_answer, refusal) == 0);
ZHITOMRAK_IS(pressure_answer_pressure, offsetof(zhitomrak_pressure_answer, pressure) == 16);
ZHITOMRAK_IS(tendency_answer_size, sizeof(zhitomrak_tendency_answer) == 32);
ZHITOMRAK_IS(tendency_answer_refusal, offsetof(zhitomrak_tendency_answer, refusal) == 0);
ZHITOMRAK_IS(tendency_answer_change, offsetof(zhitomrak_tendency_answer, change) == 16);
ZHITOMRAK_IS(tendency_answer_absent, offsetof(zhitomrak_tendency_answer, absent) == 24);
ZHITOMRAK_IS(wind_answer_size, sizeof(zhitomrak_wind_answer) == 20);
ZHITOMRAK_IS(wind_answer_refusal, offsetof(zhitomrak_wind_answer, refusal) == 0);
ZHITOMRAK_IS(wind_answer_speed, offsetof(zhitomrak_wind_answer, speed) == 12);
ZHITOMRAK_IS(wind_answer_direction, offsetof(zhitomrak_wind_answer, direction) == 16);
ZHITOMRAK_IS(humidity_answer_size, sizeof(zhitomrak_humidity_answer) == 32);
ZHITOMRAK_IS(humidity_answer_refusal, offsetof(zhitomrak_humidity_answer, refusal) == 0);
ZHITOMRAK_IS(humidity_answer_vapour_pressure, offsetof(zhitomrak_humidity_answer, vapour_pressure) == 12);
ZHITOMRAK_IS(humidity_answer_saturation, offsetof(zhitomrak_humidity_answer, saturation) == 16);
ZHITOMRAK_IS(humidity_answer_deficit, offsetof(zhitomrak_humidity_answer, deficit) == 20);
ZHITOMRAK_IS(humidity_answer_relative_humidity, offsetof(zhitomrak_humidity_answer, relative_humidity) == 24);
ZHITOMRAK_IS(humidity_answer_dew_point, offsetof(zhitomrak_humidity_answer, dew_point) == 28);
ZHITOMRAK_IS(newest_answer_size, sizeof(zhitomrak_newest_answer) == 16);
ZHITOMRAK_IS(newest_answer_number, offsetof(zhitomrak_newest_answer, number) == 0);
ZHITOMRAK_IS(newest_answer_minute, offsetof(zhitomrak_newest_answer, minute) == 8);
ZHITOMRAK_IS(reading_answer_size, sizeof(zhitomrak_reading_answer) == 28);
ZHITOMRAK_IS(reading_answer_refusal, offsetof(zhitomrak_reading_answer, refusal) == 0);
ZHITOMRAK_IS(reading_answer_channel, offsetof(zhitomrak_reading_answer, channel) == 12);
ZHITOMRAK_IS(reading_answer_unit, offsetof(zhitomrak_reading_answer, unit) == 16);
ZHITOMRAK_IS(reading_answer_first, offsetof(zhitomrak_reading_answer, first) == 20);
ZHITOMRAK_IS(reading_answer_second, offsetof(zhitomrak_reading_answer, second) == 24);
ZHITOMRAK_IS(record_size, sizeof(zhitomrak_record) == 28);
ZHITOMRAK_IS(record_kind, offsetof(zhitomrak_record, kind) == 0);
ZHITOMRAK_IS(record_minute, offsetof(zhitomrak_record, minute) == 4);
ZHITOMRAK_IS(record_of, offsetof(zhitomrak_record, of) == 8);
ZHITOMRAK_IS(record_of_pressure_pressure, offsetof(zhitomrak_record, of.pressure.pressure) == 8);
ZHITOMRAK_IS(record_of_tendency_change, offsetof(zhitomrak_record, of.tendency.change) == 8);
ZHITOMRAK_IS(record_of_tendency_absent, offsetof(zhitomrak_record, of.tendency.absent) == 12);
ZHITOMRAK_IS(record_of_wind_speed, offsetof(zhitomrak_record, of.wind.speed) == 8);
ZHITOMRAK_IS(record_of_wind_direction, offsetof(zhitomrak_record, of.wind.direction) == 12);
ZHITOMRAK_IS(record_of_humidity_vapour_pressure, offsetof(zhitomrak_record, of.humidity.vapour_pressure) == 8);
ZHITOMRAK_IS(record_of_humidity_saturation, offsetof(zhitomrak_record, of.humidity.saturation) == 12);
ZHITOMRAK_IS(record_of_humidity_deficit, offsetof(zhitomrak_record, of.humidity.deficit) == 16);
ZHITOMRAK_IS(record_of_humidity_relative_humidity, offsetof(zhitomrak_record, of.humidity.relative_humidity) == 20);
ZHITOMRAK_IS(record_of_humidity_dew_point, offsetof(zhitomrak_record, of.humidity.dew_point) == 24);
ZHITOMRAK_IS(record_of_figures, offsetof(zhitomrak_record, of.figures) == 8);
ZHITOMRAK_IS(file_size, sizeof(zhitomrak_file) == 24);
ZHITOMRAK_IS(file_number, offsetof(zhitomrak_file, number) == 0);
ZHITOMRAK_IS(file_place, offsetof(zhitomrak_file, place) == 8);
ZHITOMRAK_IS(file_count, offsetof(zhitomrak_file, count) == 16);
ZHITOMRAK_IS(written_size, sizeof(zhitomrak_written) == 24);
ZHITOMRAK_IS(written_number, offsetof(zhitomrak_written, number) == 0);
ZHITOMRAK_IS(written_index, offsetof(zhitomrak_written, index) == 8);
ZHITOMRAK_IS(written_bytes, offsetof(zhitomrak_written, bytes) == 16);
ZHITOMRAK_IS(placed_size, sizeof(zhitomrak_placed) == 32);
ZHITOMRAK_IS(placed_number, offsetof(zhitomrak_placed, number) == 0);
ZHITOMRAK_IS(placed_index, offsetof(zhitomrak_placed, index) == 8);
ZHITOMRAK_IS(placed_place, offsetof(zhitomrak_placed, place) == 16);
ZHITOMRAK_IS(placed_bytes, offsetof(zhitomrak_placed, bytes) == 24);
ZHITOMRAK_IS(listed_size, sizeof(zhitomrak_listed) == 16);
ZHITOMRAK_IS(listed_number, offsetof(zhitomrak_listed, number) == 0);
ZHITOMRAK_IS(listed_bytes, offsetof(zhitomrak_listed, bytes) == 8);
ZHITOMRAK_IS(sentence_size, sizeof(zhitomrak_sentence) == 160);
ZHITOMRAK_IS(sentence_bytes, offsetof(zhitomrak_sentence, bytes) == 0);
#undef ZHITOMRAK_IS
#undef ZHITOMRAK_AS

#ifdef __cplusplus
}
#endif

#endif
