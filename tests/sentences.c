/* What people read: each answer's sentence, each refusal's by its number and what it also returns, and the texts of the header. A
 * sentence has its length, and zeros behind it to the end. */
#include "check.h"

#define DEGREE "\302\260"

/* The sentence is this text, so long, and nothing but zeros follow. */
static void is_said(size_t length, const zhitomrak_sentence *got, const char *text)
{
    zhitomrak_sentence wanted;
    memset(&wanted, 0, sizeof wanted);
    memcpy(wanted.bytes, text, strlen(text));
    IS(length, strlen(text));
    if (memcmp(got, &wanted, sizeof wanted) == 0)
        return;
    printf("sentences: \"%.160s\", not \"%s\"\n", got->bytes, text);
    wrong++;
}

/* What stood there before is no part of it. */
static zhitomrak_sentence unsaid(void)
{
    zhitomrak_sentence sentence;
    memset(&sentence, 0xa5, sizeof sentence);
    return sentence;
}

/* ---- answers */

static void pressure(int64_t tenths, const char *text)
{
    zhitomrak_sentence sentence = unsaid();
    is_said(zhitomrak_say_pressure((zhitomrak_pressure_answer){{0, 0, 0}, tenths}, &sentence), &sentence, text);
}

static void tendency(int64_t change, uint64_t absent, const char *text)
{
    zhitomrak_sentence sentence = unsaid();
    is_said(zhitomrak_say_tendency((zhitomrak_tendency_answer){{0, 0, 0}, change, absent}, &sentence), &sentence, text);
}

static void wind(uint32_t speed, uint32_t direction, const char *text)
{
    zhitomrak_sentence sentence = unsaid();
    is_said(zhitomrak_say_wind((zhitomrak_wind_answer){{0, 0, 0}, speed, direction}, &sentence), &sentence, text);
}

static void humidity(uint32_t e, uint32_t saturation, uint32_t deficit, uint32_t relative, int32_t dew, const char *text)
{
    zhitomrak_sentence sentence = unsaid();
    zhitomrak_humidity_answer answer = {{0, 0, 0}, e, saturation, deficit, relative, dew};
    is_said(zhitomrak_say_humidity(answer, &sentence), &sentence, text);
}

static void reading(uint32_t channel, uint32_t unit, int32_t first, uint32_t second, const char *text)
{
    zhitomrak_sentence sentence = unsaid();
    zhitomrak_reading_answer answer = {{0, 0, 0}, channel, unit, first, second};
    is_said(zhitomrak_say_reading(answer, &sentence), &sentence, text);
}

static void answers_are_said(void)
{
    pressure(10057, "1005.7 hPa at sea level");
    pressure(10000, "1000.0 hPa at sea level");
    pressure(9999, "999.9 hPa at sea level");
    pressure(0, "0.0 hPa at sea level");
    pressure(-1, "-0.1 hPa at sea level");
    pressure(INT64_MAX, "922337203685477580.7 hPa at sea level");
    pressure(INT64_MIN, "-922337203685477580.8 hPa at sea level");
    tendency(-1, 11, "-0.1 hPa in three hours, 11 minutes without a reading");
    tendency(4, 1, "+0.4 hPa in three hours, 1 minute without a reading");
    tendency(0, 0, "0.0 hPa in three hours, 0 minutes without a reading");
    tendency(-123, 179, "-12.3 hPa in three hours, 179 minutes without a reading");
    tendency(3000, 2, "+300.0 hPa in three hours, 2 minutes without a reading");
    tendency(INT64_MIN, UINT64_MAX, "-922337203685477580.8 hPa in three hours, 18446744073709551615 minutes without a reading");
    wind(45, 166, "4.5 m/s from 166" DEGREE);
    wind(100, 1, "10.0 m/s from 1" DEGREE);
    wind(956, 360, "95.6 m/s from 360" DEGREE);
    wind(1, 10, "0.1 m/s from 10" DEGREE);
    wind(0, 0, "calm");
    wind(0, 90, "calm");
    wind(UINT32_MAX, UINT32_MAX, "429496729.5 m/s from 4294967295" DEGREE);
    humidity(910, 1200, 290, 76, 55,
             "vapour pressure 9.10 hPa, saturation 12.00 hPa, deficit 2.90 hPa, relative humidity 76 %, dew point 5.5 " DEGREE "C");
    humidity(260, 287, 27, 91, -112,
             "vapour pressure 2.60 hPa, saturation 2.87 hPa, deficit 0.27 hPa, relative humidity 91 %, dew point -11.2 " DEGREE "C");
    humidity(12345, 12345, 0, 100, -3,
             "vapour pressure 123.45 hPa, saturation 123.45 hPa, deficit 0.00 hPa, relative humidity 100 %, dew point -0.3 " DEGREE "C");
    humidity(19, 19, 5, 0, 0,
             "vapour pressure 0.19 hPa, saturation 0.19 hPa, deficit 0.05 hPa, relative humidity 0 %, dew point 0.0 " DEGREE "C");
    humidity(UINT32_MAX, UINT32_MAX, UINT32_MAX, UINT32_MAX, INT32_MIN,
             "vapour pressure 42949672.95 hPa, saturation 42949672.95 hPa, deficit 42949672.95 hPa, relative humidity 4294967295 %, "
             "dew point -214748364.8 " DEGREE "C");
}

static void readings_are_said(void)
{
    reading(0, ZHITOMRAK_UNIT_HPA, 10042, 0, "1004.2 hPa");
    reading(0, ZHITOMRAK_UNIT_MM_HG, 7531, 0, "753.1 mm Hg");
    reading(1, ZHITOMRAK_UNIT_CELSIUS, 124, 0, "12.4 " DEGREE "C");
    reading(1, ZHITOMRAK_UNIT_CELSIUS, -4, 0, "-0.4 " DEGREE "C");
    reading(2, ZHITOMRAK_UNIT_METRES_PER_SECOND, 85, 30, "8.5 m/s, 30" DEGREE " from the bow");
    reading(2, ZHITOMRAK_UNIT_METRES_PER_SECOND, 0, 0, "0.0 m/s, 0" DEGREE " from the bow");
    reading(3, ZHITOMRAK_UNIT_KNOTS, 102, 45, "10.2 knots, course 45" DEGREE);
    reading(4, ZHITOMRAK_UNIT_CELSIUS, -400, 0, "-40.0 " DEGREE "C");
    reading(5, ZHITOMRAK_UNIT_CELSIUS, 98, ZHITOMRAK_STATE_WATER, "9.8 " DEGREE "C, water on it");
    reading(5, ZHITOMRAK_UNIT_CELSIUS, -98, ZHITOMRAK_STATE_ICE, "-9.8 " DEGREE "C, ice on it");
    reading(5, ZHITOMRAK_UNIT_CELSIUS, 0, ZHITOMRAK_STATE_UNKNOWN, "0.0 " DEGREE "C, state unknown");
    reading(UINT32_MAX, UINT32_MAX, INT32_MIN, UINT32_MAX, "-214748364.8 " DEGREE "C");
}

/* A refusal beside an answer: figures are not looked at. */
static void refusals_beside_answers_are_said(void)
{
    static const struct {
        zhitomrak_refusal refusal;
        const char *text;
    } all[] = {
        {{11, 0, 820}, "the barometer has no reading at minute 820"},
        {{11, 5, 0}, "the wet bulb has no reading at minute 0"},
        {{12, 0, 240}, "the barometer at minute 240 is outside its certificate"},
        {{5, 0, 0}, "the minute is above 16777215"},
        {{2, 0, 0}, "the channel is above 5"},
        {{14, 0, 0}, "there are no three hours before the minute"},
        {{15, 0, 0}, "the vapour pressure is below 0.19 hPa"},
        {{255, 0, 0}, "the store was never opened"},
    };
    for (size_t i = 0; i < sizeof all / sizeof all[0]; i++) {
        zhitomrak_refusal why = all[i].refusal;
        zhitomrak_sentence s = unsaid();
        is_said(zhitomrak_say_pressure((zhitomrak_pressure_answer){why, 10057}, &s), &s, all[i].text);
        s = unsaid();
        is_said(zhitomrak_say_tendency((zhitomrak_tendency_answer){why, 1, 2}, &s), &s, all[i].text);
        s = unsaid();
        is_said(zhitomrak_say_wind((zhitomrak_wind_answer){why, 45, 166}, &s), &s, all[i].text);
        s = unsaid();
        is_said(zhitomrak_say_humidity((zhitomrak_humidity_answer){why, 1, 2, 3, 4, 5}, &s), &s, all[i].text);
        s = unsaid();
        is_said(zhitomrak_say_reading((zhitomrak_reading_answer){why, 1, 2, 3, 4}, &s), &s, all[i].text);
    }
}

/* ---- refusals by their numbers */

/* What the library says with 3 and 7 beside the number, and what the header says without. */
static const struct {
    uint32_t number;
    const char *said;
    const char *text;
} refusals[] = {
    {0, "nothing is refused", NULL},
    {1, "the message is not 16 bytes", "the message is not 16 bytes"},
    {2, "the channel is above 5", "the channel is above 5"},
    {3, "a byte of the message that must be zero is not", "a byte of the message that must be zero is not"},
    {4, "the state of the wet bulb is above 2", "the state of the wet bulb is above 2"},
    {5, "the minute is above 16777215", "the minute is above 16777215"},
    {6, "a value is infinite or not a number", "a value is infinite or not a number"},
    {7, "a value is outside its limits", "a value is outside its limits"},
    {8, "the minute is that of the channel's newest reading", "the minute is that of the channel's newest reading"},
    {9, "a setting is outside its limits", "a setting is outside its limits"},
    {10, "the barometer's certificate breaks its rules", "the barometer's certificate breaks its rules"},
    {11, "the ship's motion has no reading at minute 7", "a reading is absent or no longer kept"},
    {12, "the barometer at minute 3 is outside its certificate", "a reading of the barometer is outside its certificate"},
    {13, "the wet bulb is above the dry bulb, with water on it", "the wet bulb is above the dry bulb, with water on it"},
    {14, "there are no three hours before the minute", "there are no three hours before the minute"},
    {15, "the vapour pressure is below 0.19 hPa", "the vapour pressure is below 0.19 hPa"},
    {16, "record 3, counted from 0, breaks the rules of the file, or is one too many", "a record breaks the rules of the file, or is one too many"},
    {17, "the buffer is too short: 3 bytes are needed", "the buffer is too short"},
    {18, "the file is broken at byte 3", "the file is broken"},
    {19, "the minute is 3 minutes earlier than the channel's newest reading", "the minute is earlier than the channel's newest reading"},
    {20, "the wet bulb is above 0.0 " DEGREE "C, and not with water on it",
     "the wet bulb is above 0.0 " DEGREE "C, and not with water on it"},
    {21, "the wet bulb's state is unknown, and the dry bulb not within -9.9 to 0.0 " DEGREE "C",
     "the wet bulb's state is unknown, and the dry bulb not within -9.9 to 0.0 " DEGREE "C"},
    {22, "the vapour pressure is above saturation over water at the dry bulb",
     "the vapour pressure is above saturation over water at the dry bulb"},
    {23, "a dial is above 9999, or the seconds are not 1 to 600", "a dial is above 9999, or the seconds are not 1 to 600"},
    {24, "the rate is outside the anemometer's certificate, or there is none",
     "the rate is outside the anemometer's certificate, or there is none"},
    {25, "the anemometer's certificate breaks its rules", "the anemometer's certificate breaks its rules"},
    {254, "there is no such record", "there is no such record"},
    {255, "the store was never opened", "the store was never opened"},
};

static void says(uint32_t number, uint64_t first, uint64_t second, const char *text)
{
    zhitomrak_sentence sentence = unsaid();
    is_said(zhitomrak_say_refusal(number, first, second, &sentence), &sentence, text);
}

/* The header's text of a number, or none. */
static void is_text(uint32_t number, const char *wanted)
{
    const char *text = zhitomrak_refusal_text(number);
    IS(text == NULL, wanted == NULL);
    if (text != NULL && wanted != NULL)
        IS(strcmp(text, wanted), 0);
}

static void refusals_are_said(void)
{
    size_t next = 0;
    for (uint32_t number = 0; number <= 260; number++) {
        char none[ZHITOMRAK_SENTENCE_MAX_BYTES];
        snprintf(none, sizeof none, "no refusal has the number %lu", (unsigned long)number);
        int listed = next < sizeof refusals / sizeof refusals[0] && refusals[next].number == number;
        says(number, 3, 7, listed ? refusals[next].said : none);
        is_text(number, listed ? refusals[next].text : NULL);
        next += (size_t)listed;
    }
    IS(next, sizeof refusals / sizeof refusals[0]);
    says(UINT32_MAX, 3, 7, "no refusal has the number 4294967295");
    is_text(UINT32_MAX, NULL);
    is_text(256 + 5, NULL);
    says(256 + 11, 3, 7, "no refusal has the number 267");
}

/* What refusals also return, from the least to the largest. */
static void returns_are_said(void)
{
    static const char *channels[] = {"the barometer", "the wheelhouse thermometer", "the apparent wind", "the ship's motion",
                                     "the dry bulb",  "the wet bulb",               "channel 6",         "channel 7"};
    for (uint32_t channel = 0; channel < 8; channel++) {
        char text[ZHITOMRAK_SENTENCE_MAX_BYTES];
        snprintf(text, sizeof text, "%s has no reading at minute 16777215", channels[channel]);
        says(11, channel, 16777215, text);
    }
    says(11, UINT64_MAX, UINT64_MAX, "channel 18446744073709551615 has no reading at minute 18446744073709551615");
    says(11, UINT64_C(0x100000000), 10, "channel 4294967296 has no reading at minute 10");
    says(12, 0, 7, "the barometer at minute 0 is outside its certificate");
    says(12, UINT64_MAX, 7, "the barometer at minute 18446744073709551615 is outside its certificate");
    says(16, 48, 0, "record 48, counted from 0, breaks the rules of the file, or is one too many");
    says(16, UINT64_MAX, 0, "record 18446744073709551615, counted from 0, breaks the rules of the file, or is one too many");
    says(17, 820, 0, "the buffer is too short: 820 bytes are needed");
    says(17, UINT64_MAX, 0, "the buffer is too short: 18446744073709551615 bytes are needed");
    says(18, 0, 0, "the file is broken at byte 0");
    says(18, UINT64_MAX, 0, "the file is broken at byte 18446744073709551615");
    says(19, 0, 0, "the minute is 0 minutes earlier than the channel's newest reading");
    says(19, 1, 0, "the minute is 1 minute earlier than the channel's newest reading");
    says(19, 60, 0, "the minute is 60 minutes earlier than the channel's newest reading");
    says(19, UINT64_MAX, 0, "the minute is 18446744073709551615 minutes earlier than the channel's newest reading");
}

/* ---- what a call told */

#define TOLD(say, told, text)                              \
    do {                                                   \
        zhitomrak_sentence sentence = unsaid();            \
        is_said(say(told, &sentence), &sentence, text);    \
    } while (0)

static void calls_are_said(void)
{
    zhitomrak_heard late = {19, 60}, heard = {0, 0};
    TOLD(zhitomrak_say_heard, heard, "nothing is refused");
    TOLD(zhitomrak_say_heard, late, "the minute is 60 minutes earlier than the channel's newest reading");
    zhitomrak_noted no_course = {11, 3, 600, 0}, noted_late = {19, 0, 0, 1};
    TOLD(zhitomrak_say_noted, no_course, "the ship's motion has no reading at minute 600");
    TOLD(zhitomrak_say_noted, noted_late, "the minute is 1 minute earlier than the channel's newest reading");
    zhitomrak_refusal missing = {11, 4, 220}, outside = {12, 0, 180};
    TOLD(zhitomrak_say_asked, missing, "the dry bulb has no reading at minute 220");
    TOLD(zhitomrak_say_asked, outside, "the barometer at minute 180 is outside its certificate");
    zhitomrak_file broken = {18, 41, 0}, good = {0, 0, 4};
    TOLD(zhitomrak_say_read, broken, "the file is broken at byte 41");
    TOLD(zhitomrak_say_read, good, "nothing is refused");
    zhitomrak_written ruled_out = {16, 3, 0}, no_room = {17, 0, 54};
    TOLD(zhitomrak_say_written, ruled_out, "record 3, counted from 0, breaks the rules of the file, or is one too many");
    TOLD(zhitomrak_say_written, no_room, "the buffer is too short: 54 bytes are needed");
    zhitomrak_placed index = {16, 48, 0, 0}, place = {18, 0, 2, 0}, bytes = {17, 0, 0, 820}, none = {254, 0, 0, 0};
    TOLD(zhitomrak_say_placed, index, "record 48, counted from 0, breaks the rules of the file, or is one too many");
    TOLD(zhitomrak_say_placed, place, "the file is broken at byte 2");
    TOLD(zhitomrak_say_placed, bytes, "the buffer is too short: 820 bytes are needed");
    TOLD(zhitomrak_say_placed, none, "there is no such record");
    zhitomrak_listed no_listing = {17, 70};
    TOLD(zhitomrak_say_listed, no_listing, "the buffer is too short: 70 bytes are needed");
}

int main(void)
{
    answers_are_said();
    readings_are_said();
    refusals_beside_answers_are_said();
    refusals_are_said();
    returns_are_said();
    calls_are_said();
    return wrong != 0;
}
