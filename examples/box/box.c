/* A tilt box without an operating system. It polls the eight cylinders in turn, reads the telegram
 * from the 32 readings that its modem hands it, and says what it makes of the answer: taken,
 * refused, or not to be trusted (docs/BOX.md, "When to distrust an answer"). */
#include "../../include/cinorbis.h"
#include "box.h"

/* What the modem hands over at each poll. A clean reading has a size of 1000 here. */
static const int16_t polled[8][32] = {
    /* 0: 3.20 degrees to starboard */
    {960,   1012,  -1095, -930, 1032, 985,  -1016, -985,  987,   989, 1036,
     1026,  997,   996,   1008, 969,  980,  1027,  -1007, -1069, 976, 1033,
     -1012, -1007, 1032,  1091, 964,  1067, 938,   1009,  942,   1068},
    /* 1: 12.34 degrees to port, noisy */
    {-775, 674,  -858,  538,   1249, 661,  1448,  940,   -866,  480,   -598,
     -866, 1022, -1520, 1542,  -199, 1032, 1838,  -1056, -1887, -1327, 472,
     863,  -687, 536,   -1040, -900, 633,  -1455, -956,  1436,  698},
    /* 2: 0.87 degrees to port, over a link that is turned over */
    {1225,  1042,  913,  -837, 1100,  -931, 1326, 1053, -832, -1475, -845,
     863,   -1114, 1335, -625, -866,  801,  -828, 1197, 1870, -881,  -1094,
     -1133, 871,   -902, 1068, -1250, -959, 1691, 694,  1323, -1413},
    /* 3: cylinder 5 answers in its place */
    {1508, -771, 1271,  1557,  669,  -924, 1072,  710,   1604,  826, -1219,
     1080, 1309, 820,   -1180, 1151, 572,  -1232, -1251, -1130, 957, -447,
     -728, -993, -1067, -738,  -871, 1267, -586,  -1302, -1676, 993},
    /* 4: 6.10 degrees to starboard, more noise than the code corrects */
    {-1049, 472,   47,   -1505, -1623, -809, 423,   789, 1361, -123, 1291,
     1451,  -1067, -280, 630,   885,   -236, -1109, 273, 1022, 1072, 848,
     -1150, -1021, 1094, 492,   -122,  1520, -1935, 156, 263,  784},
    /* 5: a dead link */
    {0, 0, 0, 0, 0, 0, 0, 0, 0, 0, 0, 0, 0, 0, 0, 0,
     0, 0, 0, 0, 0, 0, 0, 0, 0, 0, 0, 0, 0, 0, 0, 0},
    /* 6: level */
    {1394, 839,  552,  947, -619, -985, -1051, -1027, -483, -1485, -868,
     -32,  1023, 1347, 739, 809,  1051, 987,   636,   1343, 835,   1306,
     987,  1570, 959,  685, 1474, 471,  875,   904,   1434, 1204},
    /* 7: 9.99 degrees to port, and a fault of the converter */
    {1046, 1333, -967,   745,  -1219, -1277, -1001, 990,   -927, 1050, -960,
     -659, -931, -32768, 908,  906,   988,   -1289, 1216,  754,  1100, -824,
     -858, -960, 1015,   1331, -842,  742,   -873,  -1212, -833, 1163},
};

/* the sum of the readings' sizes: 32 times the size of one reading, on the average */
static uint32_t sizes(const int16_t *readings) {
    uint32_t sum = 0;
    for (int j = 0; j < 32; j++) sum += (uint32_t)(readings[j] < 0 ? -readings[j] : readings[j]);
    return sum;
}

static void say_tilt(const cinorbis_telegram *telegram) {
    uint32_t tilt = (uint32_t)telegram->tilt;
    say_number(tilt / 100), say("."), say_number(tilt / 10 % 10), say_number(tilt % 10);
    say(" degrees"), say(tilt == 0 ? "" : telegram->direction ? " to port" : " to starboard");
}

/* One poll. Nothing of a refused telegram is used: its fields are 0. */
static void poll(uint32_t cylinder, const int16_t *readings) {
    cinorbis_telegram telegram;
    cinorbis_numbers numbers;
    uint32_t refusal = cinorbis_telegram_read(readings, 32, &telegram, &numbers);
    say("cylinder "), say_number(cylinder), say(": ");
    if (refusal != CINORBIS_DONE) {
        say("refused "), say_number(refusal), say(", "), say(cinorbis_refusal_text(refusal));
    } else if (telegram.cylinder != cylinder) {
        say("not taken, cylinder "), say_number((uint32_t)telegram.cylinder), say(" answers");
    } else if (32 * numbers.gap < sizes(readings)) {
        say("not taken, "), say_tilt(&telegram), say(" with a gap of ");
        say_number((uint32_t)numbers.gap), say(", below the size of one reading");
    } else {
        say_tilt(&telegram), say(", penalty "), say_number((uint32_t)numbers.penalty);
        say(", gap "), say_number((uint32_t)numbers.gap);
    }
    say("\n");
}

int main(void) {
    if (cinorbis_version() != CINORBIS_VERSION) {
        say("the archive is of another version than the header\n");
        return 1;
    }
    for (uint32_t cylinder = 0; cylinder < 8; cylinder++) poll(cylinder, polled[cylinder]);
    return 0;
}
