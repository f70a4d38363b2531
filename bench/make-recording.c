/* Makes the recording of a busy boat: make-recording SEED BYTES writes that many bytes, rounded down to whole
   records, to standard output. The same seed and size give the same bytes. The times wrap near the middle. */
#include <stdint.h>
#include <stdio.h>
#include <stdlib.h>
#include <string.h>

enum { SECOND = 4800, SYMBOL = 11, QUIET = 10 };

struct datagram {
    unsigned char bytes[18];
    unsigned length;
};

/* The boat, in the units of the bus. */
static struct {
    int depth, wind_angle, wind_speed, speed, average, trip, total, water, lamp, ground, course, heading, rudder;
    int turning, lat, lon, variation, pilot_course, pilot_modes;
    long seconds;
} boat = {
    .depth = 312, .wind_angle = 84, .wind_speed = 143, .speed = 612, .average = 598, .trip = 1204, .total = 48211,
    .water = 268, .lamp = 1, .ground = 63, .course = 582, .heading = 291, .rudder = -2, .turning = 1,
    .lat = 59 * 6000 + 2210, .lon = 10 * 6000 + 4415, .variation = 3,
    .pilot_course = 582, .pilot_modes = 2, .seconds = 9 * 3600,
};

static uint64_t seed;
static uint64_t now; /* bit times; a record holds the low 32 bits */
static uint64_t left; /* records still to write */

static uint32_t draw(uint32_t below)
{
    uint64_t z = seed += UINT64_C(0x9E3779B97F4A7C15);
    z = (z ^ z >> 30) * UINT64_C(0xBF58476D1CE4E5B9);
    z = (z ^ z >> 27) * UINT64_C(0x94D049BB133111EB);
    return (uint32_t)(((z ^ z >> 31) >> 32) * below >> 32);
}

static int chance(uint32_t one_in) { return draw(one_in) == 0; }

/* A step of a value that wanders within low..high. */
static void wander(int *value, int step, int low, int high)
{
    *value += (int)draw((uint32_t)(2 * step + 1)) - step;
    if (*value < low)
        *value = low;
    if (*value > high)
        *value = high;
}

/* The same for an angle of so many units. */
static void swing(int *angle, int step, int whole)
{
    *angle = (*angle + (int)draw((uint32_t)(2 * step + 1)) - step + whole) % whole;
}

static void sound(unsigned symbol)
{
    if (left == 0)
        return;
    left--;
    unsigned char record[8] = {
        0x53, 0x54, (unsigned char)now, (unsigned char)(now >> 8), (unsigned char)(now >> 16),
        (unsigned char)(now >> 24), (unsigned char)symbol, (unsigned char)(symbol >> 8),
    };
    if (fwrite(record, 8, 1, stdout) != 1) {
        perror("make-recording");
        exit(1);
    }
    now += SYMBOL;
}

static void sound_first(const struct datagram *d, unsigned count)
{
    for (unsigned i = 0; i < count; i++)
        sound(d->bytes[i] | (i == 0 ? 256u : 0u));
}

/* A datagram of the given command, high digit of the second byte and bytes after that. */
static struct datagram spell(int command, int high, unsigned count, const int *rest)
{
    struct datagram d = {.length = count + 2};
    d.bytes[0] = (unsigned char)command;
    d.bytes[1] = (unsigned char)(high << 4 | (int)(count - 1));
    for (unsigned i = 0; i < count; i++)
        d.bytes[i + 2] = (unsigned char)rest[i];
    return d;
}

#define SPELL(command, high, ...) \
    spell(command, high, sizeof((int[]){__VA_ARGS__}) / sizeof(int), (int[]){__VA_ARGS__})
#define WORD(v) (v) & 255, (v) >> 8 & 255

/* U and six bits of a half-degree angle. */
static int angle_u(int half) { return half / 180 | half % 4 << 2; }
static int angle_six(int half) { return half % 180 / 4; }

/* U and six bits of a whole-degree angle. The two high bits of U count one degree each, and the higher one is set where the
   boat turns right: an odd degree sets one of them, an even one none or, from two degrees less, both. */
static int spelled_from(int degrees, int right) { return degrees % 2 == 0 && right ? (degrees + 358) % 360 : degrees; }
static int turn_u(int degrees, int right)
{
    int high = degrees % 2 == 0 ? 3 * right : 1 + right;
    return spelled_from(degrees, right) / 90 | high << 2;
}
static int turn_six(int degrees, int right) { return spelled_from(degrees, right) % 90 / 2; }

/* What the instrument with this command says now. */
static struct datagram say(int command)
{
    int second;
    switch (command) {
    case 0x00:
        wander(&boat.depth, 6, 12, 3000);
        return SPELL(0x00, 0, (boat.depth < 40 ? 1 : 0) | (chance(500) ? 4 : 0), WORD(boat.depth));
    case 0x10:
        swing(&boat.wind_angle, 9, 720);
        return SPELL(0x10, 0, boat.wind_angle >> 8, boat.wind_angle & 255);
    case 0x11:
        wander(&boat.wind_speed, 7, 0, 480);
        return SPELL(0x11, 0, boat.wind_speed / 10, boat.wind_speed % 10);
    case 0x20:
        wander(&boat.speed, 12, 0, 1150);
        return SPELL(0x20, 0, WORD(boat.speed / 10));
    case 0x21:
        boat.trip += (int)draw(2);
        return SPELL(0x21, 0, WORD(boat.trip), boat.trip >> 16 & 15);
    case 0x22:
        boat.total += chance(60);
        return SPELL(0x22, 0, WORD(boat.total), 0);
    case 0x25:
        return SPELL(0x25, boat.total >> 16 & 15, WORD(boat.total), WORD(boat.trip), 0xA0 | (boat.trip >> 16 & 15));
    case 0x26:
        wander(&boat.average, 3, 0, 1150);
        return SPELL(0x26, 0, WORD(boat.speed), WORD(boat.average), 0x40 | (boat.speed < 20));
    case 0x27:
        wander(&boat.water, 1, 70, 420);
        return SPELL(0x27, 0, WORD(boat.water));
    case 0x30:
        boat.lamp = (int)draw(4);
        return SPELL(0x30, 0, 4 * boat.lamp);
    case 0x50:
        wander(&boat.lat, 2, 50 * 6000, 65 * 6000);
        return SPELL(0x50, 10, boat.lat / 6000, WORD(boat.lat % 6000));
    case 0x51:
        wander(&boat.lon, 2, 0, 20 * 6000);
        return SPELL(0x51, 10, boat.lon / 6000, WORD(boat.lon % 6000 | 0x8000));
    case 0x52:
        wander(&boat.ground, 2, 0, 130);
        return SPELL(0x52, 0, WORD(boat.ground));
    case 0x53:
        swing(&boat.course, 5, 720);
        return SPELL(0x53, angle_u(boat.course), angle_six(boat.course));
    case 0x54:
        boat.seconds++;
        second = (int)(boat.seconds % 60);
        return SPELL(0x54, second & 15, (int)(boat.seconds / 60 % 60) << 2 | second >> 4,
                     (int)(boat.seconds / 3600 % 24));
    case 0x56:
        return SPELL(0x56, 7, 1 + (int)(boat.seconds / 86400 % 31), 24);
    case 0x84: {
        static const int modes[] = {0, 2, 6, 10}; /* standby, auto, vane, track */
        swing(&boat.heading, 2, 360);
        if (chance(40))
            swing(&boat.pilot_course, 20, 720);
        if (chance(100))
            boat.pilot_modes = modes[draw(4)];
        return SPELL(0x84, turn_u(boat.heading, boat.turning),
                     boat.pilot_course / 180 << 6 | turn_six(boat.heading, boat.turning), boat.pilot_course % 180,
                     boat.pilot_modes, chance(50) ? (int)draw(4) << 2 : 0, boat.rudder & 255, 2, 8);
    }
    case 0x86: {
        static const int keys[] = {0x05, 0x06, 0x07, 0x08, 0x01, 0x02, 0x44, 0x45};
        int key = keys[draw(8)];
        return SPELL(0x86, 1, key, 255 - key);
    }
    case 0x89:
        swing(&boat.heading, 3, 360);
        return SPELL(0x89, angle_u(2 * boat.heading), angle_six(2 * boat.heading) | 0x40, 112,
                     0x20 | (chance(3) ? 2 : 0));
    case 0x99:
        if (chance(200))
            wander(&boat.variation, 1, -20, 20);
        return SPELL(0x99, 0, -boat.variation & 255);
    case 0x9C:
        swing(&boat.heading, 3, 360);
        wander(&boat.rudder, 2, -30, 30);
        boat.turning ^= chance(8);
        return SPELL(0x9C, turn_u(boat.heading, boat.turning), turn_six(boat.heading, boat.turning), boat.rudder & 255);
    /* Commands that the table does not have: satellites, waypoint, trip reset. */
    case 0xA5:
        return SPELL(0xA5, 5, 0x14, 0x10 + (int)draw(8), (int)draw(256), (int)draw(256), (int)draw(256), 0, 0, 0);
    case 0x82:
        return SPELL(0x82, 10, 0x18, 0xE7, 0x30, 0xCF, 0x04, 0xFB);
    default:
        return SPELL(0x68, 4, 1, 0);
    }
}

/* Sendings in ten seconds. */
static const struct { int command, often; } instruments[] = {
    {0x00, 30}, {0x10, 30}, {0x11, 30}, {0x20, 20}, {0x21, 5}, {0x22, 5}, {0x25, 10}, {0x26, 20}, {0x27, 5},
    {0x30, 1}, {0x50, 20}, {0x51, 20}, {0x52, 20}, {0x53, 20}, {0x54, 10}, {0x56, 2}, {0x84, 30}, {0x86, 2},
    {0x89, 20}, {0x99, 5}, {0x9C, 100}, {0xA5, 4}, {0x82, 2}, {0x68, 1},
};
enum { INSTRUMENTS = sizeof instruments / sizeof instruments[0] };

/* Makes a datagram that the reader refuses: another length, a bad repeat or a field out of range. */
static void spoil(struct datagram *d)
{
    switch (draw(3)) {
    case 0:
        d->bytes[1] = (unsigned char)((d->bytes[1] & 0xF0) | draw(8));
        d->length = 3u + (d->bytes[1] & 15);
        break;
    case 1:
        d->bytes[2] = (unsigned char)(45 + draw(19));
        break;
    default:
        d->bytes[2] |= 0xC0;
        d->bytes[3] = (unsigned char)(24 + draw(232));
    }
}

/* An attempt cut off by a collision: its last symbol may be changed by the other talker's. */
static void collide(struct datagram d)
{
    unsigned heard = 1 + draw(d.length - 1);
    if (heard > 2)
        d.bytes[heard - 1] &= (unsigned char)draw(256);
    sound_first(&d, heard);
    now += QUIET + draw(60);
}

int main(int argc, char **argv)
{
    uint64_t due[INSTRUMENTS];
    if (argc != 3) {
        fputs("use: make-recording SEED BYTES\n", stderr);
        return 2;
    }
    seed = strtoull(argv[1], NULL, 10);
    left = strtoull(argv[2], NULL, 10) / 8;
    now = (UINT64_C(1) << 32) - left * 8 % (UINT64_C(1) << 31);
    for (int i = 0; i < INSTRUMENTS; i++)
        due[i] = now + draw((uint32_t)(10 * SECOND / instruments[i].often));
    while (left > 0) {
        int first = 0;
        for (int i = 1; i < INSTRUMENTS; i++)
            if (due[i] < due[first])
                first = i;
        if (now < due[first])
            now = due[first];
        struct datagram d = say(instruments[first].command);
        if (chance(150))
            spoil(&d);
        while (chance(40))
            collide(d);
        sound_first(&d, d.length);
        if (chance(300))
            sound(draw(256));
        now += QUIET + draw(4);
        uint32_t period = (uint32_t)(10 * SECOND / instruments[first].often);
        due[first] += period - period / 20 + draw(period / 10);
        if (due[first] < now) /* the bus is full: it waits its turn and does not catch up */
            due[first] = now + draw(period / 4);
    }
    if (fclose(stdout) != 0) {
        perror("make-recording");
        return 1;
    }
    return 0;
}
