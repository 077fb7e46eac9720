/* A small host of the billing library: it meters a good day and damaged ones, checks good and damaged packets of a statement, and says what was answered,
 * one fact to a line. */
#include <inttypes.h>
#include <stdio.h>
#include <string.h>

#include "gibzurg.h"

#define OUTPUT_BYTES 400
#define BLANK 0xaa

/* The channels of a quarter, by their place in it. */
enum { GROSS_DELIVERED, GROSS_RECEIVED, NET_DELIVERED, NET_RECEIVED };

static uint8_t dump[GIBZURG_DUMP_BYTES + 1];
static uint8_t output[OUTPUT_BYTES];

static void put_number(uint8_t *bytes, uint32_t number)
{
    bytes[0] = number >> 24;
    bytes[1] = number >> 16;
    bytes[2] = number >> 8;
    bytes[3] = number;
}

static uint32_t number_at(const uint8_t *bytes)
{
    return (uint32_t)bytes[0] << 24 | (uint32_t)bytes[1] << 16 | (uint32_t)bytes[2] << 8 | bytes[3];
}

static void put_channel(int quarter, int channel, uint32_t kwh)
{
    put_number(dump + 16 * quarter + 4 * channel, kwh);
}

/* A good day: from midnight to six and from eighteen to midnight the plant stands still and takes its auxiliaries from outside; else it runs. */
static void fill_good_day(void)
{
    for (int quarter = 0; quarter < 96; quarter++) {
        int runs = quarter >= 24 && quarter < 72;
        put_channel(quarter, GROSS_DELIVERED, runs ? 50000 + quarter : 0);
        put_channel(quarter, GROSS_RECEIVED, runs ? 200 : 0);
        put_channel(quarter, NET_DELIVERED, runs ? 46000 + quarter : 0);
        put_channel(quarter, NET_RECEIVED, runs ? 0 : 700 + quarter);
    }
}

static const char *words_of(uint32_t number)
{
    switch (number) {
    case GIBZURG_OUTPUT_TOO_SHORT:
        return "the output is too short for the hours of a day";
    case GIBZURG_DUMP_LENGTH:
        return "the dump is not as long as that of a day";
    case GIBZURG_QUARTER:
        return "a quarter's channel, gross or net energy is outside its limit";
    case GIBZURG_MALFORMED:
        return "no number that the format allows starts at that byte, or bytes are left over from there on";
    default:
        return "a fault that has no words";
    }
}

/* Whether the output is as it was before the call from this place on. */
static int is_blank_from(size_t place)
{
    for (; place < OUTPUT_BYTES; place++) {
        if (output[place] != BLANK) {
            return 0;
        }
    }
    return 1;
}

/* Meters the dump as it stands, with so many bytes of it and of the output, and tells the answer. */
static void meter(const char *day, size_t dump_length, size_t output_length)
{
    memset(output, BLANK, OUTPUT_BYTES);
    gibzurg_answer answer = gibzurg_meter_day(dump, dump_length, output, output_length);
    int is_accepted = answer.number == 0;
    if (is_accepted) {
        printf("%s: accepted.\n", day);
    } else {
        printf("%s: refused, fault %" PRIu32 " at %" PRIu32 ", %s.\n", day, answer.number, answer.place, words_of(answer.number));
    }
    const char *part = is_accepted ? "what lies past the hours" : "the output";
    const char *fate = is_blank_from(is_accepted ? GIBZURG_HOURS_BYTES : 0) ? "stays as it was" : "is not as it was";
    printf("%s: %s %s.\n", day, part, fate);
}

/* Meters a good day that is damaged by one number. */
static void meter_damaged(const char *day, int quarter, int channel, uint32_t kwh)
{
    fill_good_day();
    put_channel(quarter, channel, kwh);
    meter(day, GIBZURG_DUMP_BYTES, OUTPUT_BYTES);
}

static void tell_hours(const char *day)
{
    for (int hour = 0; hour < 24; hour++) {
        const uint8_t *told = output + 16 * hour;
        printf("%s, hour %d: gross %" PRIu32 ", net %" PRIu32 ", external auxiliaries %" PRIu32 ", auxiliaries %" PRIu32 " kilowatt-hours.\n", day, hour,
               number_at(told), number_at(told + 4), number_at(told + 8), number_at(told + 12));
    }
}

/* The figures of a statement, in the order of its packet; the lines and the balance with their signs. */
enum { STATE, AGENT, MARKET, CONTRACTS, OVERCOST, POWER, BALANCE, INJECTED, WITHDRAWN, PEAK, PEAK_HOUR, FIGURES };

static const int64_t STATEMENT[FIGURES] = {0, 2, -593640, 10000, 0, 0, -583640, 0, 970, 970, 8};

static uint8_t packet[FIGURES * 10 + 1];

static size_t put_groups(uint8_t *bytes, uint64_t number)
{
    size_t length = 0;
    for (; number >= 128; number /= 128) {
        bytes[length++] = number % 128 + 128;
    }
    bytes[length++] = number;
    return length;
}

/* Writes the packet of the statement, with one of its figures changed, and gives its length. */
static size_t write_packet(int changed, int64_t figure)
{
    size_t length = 0;
    for (int place = 0; place < FIGURES; place++) {
        int64_t value = place == changed ? figure : STATEMENT[place];
        int is_signed = place >= MARKET && place <= BALANCE;
        uint64_t number = is_signed ? (value < 0 ? 2 * (uint64_t)(-1 - value) + 1 : 2 * (uint64_t)value) : (uint64_t)value;
        length += put_groups(packet + length, number);
    }
    return length;
}

static void check(const char *name, size_t length)
{
    gibzurg_answer answer = gibzurg_check_statement(packet, length);
    if (answer.number == 0) {
        printf("%s: accepted.\n", name);
    } else {
        printf("%s: refused, fault %" PRIu32 " at %" PRIu32 ", %s.\n", name, answer.number, answer.place, words_of(answer.number));
    }
}

static void check_packets(void)
{
    size_t length = write_packet(STATE, 0);
    check("good packet", length);
    check("packet of no byte", 0);
    check("packet of a byte too few", length - 1);
    packet[length] = 0;
    check("packet of a byte too many", length + 1);
    check("packet of a closed month", write_packet(STATE, 1));
    check("packet of a third state", write_packet(STATE, 2));
    check("packet of agent 0", write_packet(AGENT, 0));
    check("packet of agent 64", write_packet(AGENT, 64));
    check("packet of agent 65", write_packet(AGENT, 65));
    check("packet of a balance of a point more", write_packet(BALANCE, STATEMENT[BALANCE] + 1));
    check("packet of a market line of a point more", write_packet(MARKET, STATEMENT[MARKET] + 1));
    length = write_packet(PEAK_HOUR, 8);
    packet[length - 1] = 0x88;
    packet[length] = 0;
    check("packet of a group too many", length + 1);
}

int main(void)
{
    fill_good_day();
    meter("good day", GIBZURG_DUMP_BYTES, OUTPUT_BYTES);
    tell_hours("good day");
    meter("good day into 384 bytes", GIBZURG_DUMP_BYTES, GIBZURG_HOURS_BYTES);
    meter("good day into 383 bytes", GIBZURG_DUMP_BYTES, GIBZURG_HOURS_BYTES - 1);
    meter("good day into no byte", GIBZURG_DUMP_BYTES, 0);
    meter("empty dump", 0, OUTPUT_BYTES);
    meter("empty dump into no byte", 0, 0);
    meter("dump of a byte too few", GIBZURG_DUMP_BYTES - 1, OUTPUT_BYTES);
    meter("dump of a byte too many", GIBZURG_DUMP_BYTES + 1, OUTPUT_BYTES);
    meter_damaged("channel at its limit in the first quarter", 0, NET_RECEIVED, 1000000);
    meter_damaged("channel above its limit in the first quarter", 0, NET_RECEIVED, 1000001);
    meter_damaged("channel above its limit in the last quarter", 95, NET_RECEIVED, UINT32_MAX);
    meter_damaged("gross energy below 0 in quarter 30", 30, GROSS_RECEIVED, 50031);
    meter_damaged("no gross energy, and net energy, in quarter 71", 71, GROSS_RECEIVED, 50071);
    meter_damaged("net energy of all gross energy in quarter 40", 40, NET_DELIVERED, 49840);
    meter_damaged("net energy above gross in quarter 40", 40, NET_DELIVERED, 49841);
    check_packets();
    return 0;
}
