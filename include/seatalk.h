/* SeaTalk listener, reader, writer and recording writer for C firmware.
 *
 * Every call returns an int32_t.
 *   At least 0: accepted. It is the number of bytes of the result, which stand at the front of the result buffer;
 *   the bytes past them stay as they were.
 *   Negative: refused, and nothing was written anywhere. SEATALK_REFUSAL_NUMBER and SEATALK_REFUSAL_PLACE take the
 *   refusal's number and place out of it.
 *
 * A slice is a pointer and a length in bytes. No pointer may be NULL, also where the length is 0. The buffers of one
 * call must not overlap. No call allocates, keeps a pointer or has state of its own, so calls on different buffers
 * may run at the same time.
 *
 * "rules 11.3" below is section 11.3 of docs/RULES.md, which says exactly what each call does.
 */
#ifndef SEATALK_H
#define SEATALK_H

#include <stddef.h>
#include <stdint.h>

#ifdef __cplusplus
extern "C" {
#endif

/* The refusals of these calls (rules 2.1). */
#define SEATALK_SYMBOL_ABOVE 1    /* a symbol is above 511 */
#define SEATALK_NOT_SOUND 2       /* the state is not SEATALK_STATE_SIZE bytes, or it is not sound */
#define SEATALK_NOT_WHOLE 3       /* the bytes are not a whole datagram */
#define SEATALK_UNKNOWN_COMMAND 4 /* the command is not in the table below */
#define SEATALK_WRONG_LENGTH 5    /* the length of the datagram, or of the fields, is not that kind's */
#define SEATALK_BAD_REPEAT 6      /* a byte and its inverted repeat do not sum to 255 */
#define SEATALK_OUT_OF_RANGE 7    /* a field is out of range */
#define SEATALK_NO_ROOM 8         /* the result buffer is too short */

/* Number and place of a refused call, from its negative return value. The place is 0 where a refusal has none. */
#define SEATALK_REFUSAL_NUMBER(returned) (-(int32_t)(returned) % 256)
#define SEATALK_REFUSAL_PLACE(returned) (-(int32_t)(returned) / 256)

/* The answers of the listener (rules 3.4): byte 0 of seatalk_hear's result. */
#define SEATALK_OPENED 0     /* command symbol, nothing was held: its byte is held */
#define SEATALK_CANCELLED 1  /* command symbol, something was held: its byte alone is held */
#define SEATALK_STRAY 2      /* other symbol, nothing held: still empty */
#define SEATALK_KEPT 3       /* other symbol, declared length not reached */
#define SEATALK_HANDED_OUT 4 /* other symbol, declared length reached: the datagram is in the result, the state empty */

/* Sizes in bytes (rules 11.2). */
#define SEATALK_STATE_SIZE 18      /* a listener state */
#define SEATALK_HEARD_SIZE 20      /* the result of seatalk_hear */
#define SEATALK_DATAGRAM_SIZE 18   /* at most, a datagram */
#define SEATALK_FIELDS_SIZE 44     /* at most, the fields of a kind */
#define SEATALK_SYMBOLS_SIZE 18    /* at most, the symbols of a kind */
#define SEATALK_RECORD_SIZE 8      /* a record of a recording */

/* One symbol heard (rules 11.3).
 *
 * state, 18 bytes: the number held, then 17 bytes, those held and zeros. All zeros is the empty listener. Accepted,
 * it becomes the next state.
 * symbol: 0..511; 256 and above carries the command bit. The whole 32-bit number is looked at.
 * result, 20 bytes: [0] the answer; [1] the number of bytes handed out; [2..19] these bytes, then zeros. Number and
 * bytes are 0 for every answer but SEATALK_HANDED_OUT.
 *
 * Returns 20. Refusals, the first that holds: 1, 2, 8 (result_length below 20).
 */
int32_t seatalk_hear(uint8_t *state, size_t state_length, uint32_t symbol, uint8_t *result, size_t result_length);

/* A datagram read as the fields of its kind (rules 11.4). The kind is its command, bytes[0].
 *
 * bytes: any bytes.
 * result: the fields in table order, 4 bytes each, signed two's complement, low byte first; flags 0 or 1.
 *
 * Returns 4 times the number of fields. Refusals, the first that holds: 3, 4, 5, 6, 7, 8.
 */
int32_t seatalk_read(const uint8_t *bytes, size_t bytes_length, uint8_t *result, size_t result_length);

/* A message written as symbols for the bus (rules 11.5).
 *
 * command: the kind; any number.
 * fields: laid out as the result of seatalk_read.
 * result: the symbols, 2 bytes each, low byte first; the first carries the command bit, 256.
 *
 * Returns 2 times the number of symbols. Refusals, the first that holds: 4 (a command above 255 too); 5 (fields_length
 * is not 4 times the kind's number of fields); 7 (a flag that is neither 0 nor 1 too); 8.
 */
int32_t seatalk_write(uint32_t command, const uint8_t *fields, size_t fields_length, uint8_t *result,
                      size_t result_length);

/* One record of a recording, the file that buslist lists (rules 11.6).
 *
 * time: when the symbol was heard, in bit times; any number.
 * symbol: 0..511 as it was heard, with its command bit, 256. The whole 32-bit number is looked at.
 * result, 8 bytes: the mark 53 54 in hex, the time in 4 and the symbol in 2, low byte first.
 *
 * A recording is such records one after the other, with nothing before, between or behind them: after each that was
 * accepted, result moves on by 8 and result_length is 8 less.
 *
 * Returns 8. Refusals, the first that holds: 1, 8 (result_length below 8).
 */
int32_t seatalk_record(uint32_t time, uint32_t symbol, uint8_t *result, size_t result_length);

/* The kinds (rules 4.2): command in hex, length of the datagram in bytes, fields in order with their ranges; "flag" is 0
 * or 1.
 *
 *   00 5  depth: tenths of a foot 0..65535; flags anchor, metric, defective, deep, shallow
 *   10 4  wind angle: half degrees 0..719
 *   11 4  wind speed: tenths of a knot 0..1279; flag metres
 *   20 4  speed: tenths of a knot 0..65535
 *   21 5  trip: hundredths of a mile 0..1048575
 *   22 5  total: tenths of a mile 0..65535
 *   25 7  logs: total, tenths of a mile 0..1048575; trip, hundredths of a mile 0..1048575
 *   26 7  speeds: hundredths of a knot 0..65535; average, hundredths 0..65535; flags valid, stopped, mph
 *   27 4  water: tenths of a degree Celsius -100..65435
 *   30 3  lamp: level 0..3
 *   50 5  latitude: degrees 0..90; hundredths of a minute 0..5999; flag south
 *   51 5  longitude: degrees 0..180; hundredths of a minute 0..5999; flag east
 *   52 4  ground: speed over ground, tenths of a knot 0..65535
 *   53 3  course: half degrees 0..719
 *   54 4  time: hours 0..23; minutes 0..59; seconds 0..59
 *   56 4  date: month 1..12; day 1..31; year 0..99
 *   84 9  pilot: heading in degrees 0..359; flag turning right; the pilot's course, half degrees 0..719; flags auto, vane,
 *         track, off course, wind shift; rudder, degrees -128..127; SS 0..255; TT 0..255
 *   86 4  key: source 0..15; code 0..255
 *   89 5  heading: half degrees 0..719; reference, half degrees 0..719; flag locked
 *   99 3  variation: degrees, east positive, -127..128
 *   9C 4  turn: heading in degrees 0..359; flag turning right; rudder, degrees -128..127
 *
 * Example: hear a symbol and use the speed that it may complete.
 *
 *   static uint8_t state[SEATALK_STATE_SIZE];                       // zeros: the empty listener
 *   uint8_t heard[SEATALK_HEARD_SIZE], fields[SEATALK_FIELDS_SIZE];
 *   int32_t r = seatalk_hear(state, sizeof state, symbol, heard, sizeof heard);
 *   if (r < 0) {
 *       fault(SEATALK_REFUSAL_NUMBER(r));
 *   } else if (heard[0] == SEATALK_HANDED_OUT && heard[2] == 0x20) {
 *       r = seatalk_read(heard + 2, heard[1], fields, sizeof fields);
 *       if (r >= 0) show_speed(seatalk_field(fields, 0));           // tenths of a knot
 *   }
 */

/* Field number i, counted from 0, of fields laid out as above. */
static inline int32_t seatalk_field(const uint8_t *fields, size_t i)
{
    const uint8_t *f = fields + 4 * i;
    uint32_t bits = (uint32_t)f[0] | (uint32_t)f[1] << 8 | (uint32_t)f[2] << 16 | (uint32_t)f[3] << 24;
    return bits <= INT32_MAX ? (int32_t)bits : (int32_t)(bits - INT32_MAX - 1) + INT32_MIN;
}

/* Sets it. */
static inline void seatalk_set_field(uint8_t *fields, size_t i, int32_t value)
{
    uint8_t *f = fields + 4 * i;
    uint32_t bits = (uint32_t)value;
    f[0] = (uint8_t)bits;
    f[1] = (uint8_t)(bits >> 8);
    f[2] = (uint8_t)(bits >> 16);
    f[3] = (uint8_t)(bits >> 24);
}

/* Symbol number i, counted from 0, of a result of seatalk_write. */
static inline uint32_t seatalk_symbol(const uint8_t *symbols, size_t i)
{
    return (uint32_t)symbols[2 * i] | (uint32_t)symbols[2 * i + 1] << 8;
}

#ifdef __cplusplus
}
#endif

#endif
