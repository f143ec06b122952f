/* Every call of birchjack.h, on the papers' checked examples and on refusals, which leave every cell as it was. */
#include "birchjack.h"

#include <stdio.h>
#include <stdlib.h>
#include <string.h>

static int checks;

#define CHECK(fact)                                                                                                                         \
    do {                                                                                                                                    \
        checks++;                                                                                                                           \
        if (!(fact)) {                                                                                                                      \
            fprintf(stderr, "%s:%d: not so: %s\n", __FILE__, __LINE__, #fact);                                                              \
            exit(1);                                                                                                                        \
        }                                                                                                                                   \
    } while (0)

/* Ten bytes, an entry of id 7 (sine tone, gain 255, 440 Hz, no end) with a payload of two bytes, and the payload. */
static const uint8_t bell[28] = {
    0, 0, 0, 0, 0, 0, 0, 0, 0, 0,                            /* not read */
    7, 0, 0, 0, 255, 0, 184, 1, 0, 0, 26, 0, 0, 0, 2, 0, /* the entry */
    1, 2,                                                    /* its payload */
};

/* A request for the bell with a click envelope, at priority 3. */
static const uint8_t ring[10] = {0, 7, 0, 2, 0, 40, 0, 0, 10, 3};

static void numbers(void) {
    CHECK(birchjack_sine(0) == 0 && birchjack_sine(64) == 63 && birchjack_sine(192) == -63 && birchjack_sine(255) == 0);
    CHECK(birchjack_phase_increment(1000, 8000) == 536870912);
    CHECK(birchjack_phase_increment(1000, 0) == 0);
    /* 255 hands the sample through */
    CHECK(birchjack_gain(127, 255) == 127 && birchjack_gain(-127, 255) == -127 && birchjack_gain(127, 254) == 126);
    CHECK(birchjack_lerp(-128, 127, 128) == -1);
    static const uint8_t pans[3][3] = {{0, 255, 0}, {128, 255, 255}, {129, 252, 255}};
    for (int i = 0; i < 3; i++) {
        uint8_t sides[2];
        birchjack_pan_gains(pans[i][0], &sides);
        CHECK(sides[0] == pans[i][1] && sides[1] == pans[i][2]);
    }
}

static void limits(void) {
    static const int16_t sums[4][2] = {{96, 96}, {97, 96}, {127, 111}, {-128, -112}};
    int8_t s = 55;
    for (int i = 0; i < 4; i++) {
        CHECK(birchjack_limit(sums[i][0], &s) == BIRCHJACK_ACCEPTED && s == sums[i][1]);
    }
    s = 55;
    CHECK(birchjack_limit(2033, &s) == BIRCHJACK_BAD_SUM && s == 55);
    CHECK(birchjack_limit(-2049, &s) == BIRCHJACK_BAD_SUM && s == 55);
    CHECK(birchjack_limit(INT32_MIN, &s) == BIRCHJACK_BAD_SUM && s == 55);
}

static void duties(void) {
    uint16_t d = 55;
    CHECK(birchjack_duty_of(127, 1000, &d) == 0 && d == 999);
    CHECK(birchjack_duty_of(0, 1000, &d) == 0 && d == 500);
    CHECK(birchjack_duty_of(-128, 1000, &d) == 0 && d == 1);
    for (int s = -128; s < 128; s++) {
        CHECK(birchjack_duty_of((int8_t)s, 2, &d) == 0 && d == 1);
    }
    d = 55;
    CHECK(birchjack_duty_of(0, 1, &d) == BIRCHJACK_BAD_PERIOD && d == 55);

    CHECK(birchjack_fade_step(0, 8000) == 255 && birchjack_fade_step(10, 8000) == 4);
    /* the product wraps to 65,534, which is 65 samples */
    CHECK(birchjack_fade_step(65535, 65538) == 4);
}

static void lengths(void) {
    uint32_t one[2] = {55, 55};
    uint64_t all[2] = {55, 55};
    static const uint16_t day[3] = {3019, 3019, 65535};
    CHECK(birchjack_length(3019, 22050, &one) == 0 && one[0] == 66568 && one[1] == 950);
    CHECK(birchjack_length_carrying(3019, 22050, one[1], &one) == 0 && one[0] == 66569 && one[1] == 900);
    CHECK(birchjack_length_carrying(65535, 65537, UINT32_MAX, &one) == 0 && one[0] == 8589934 && one[1] == 590);
    CHECK(birchjack_total_length(day, 2, 22050, &all) == 0 && all[0] == 133137 && all[1] == 900);
    CHECK(birchjack_total_length(day, 3, 65537, &all) == 0 && all[0] == 4690679 && all[1] == 701);
    CHECK(birchjack_total_length(day, 0, 0, &all) == 0 && all[0] == 0 && all[1] == 0);
    one[0] = one[1] = 55;
    all[0] = all[1] = 55;
    CHECK(birchjack_length(1, 65538, &one) == BIRCHJACK_BAD_RATE && birchjack_length_carrying(1, UINT32_MAX, 1, &one) == BIRCHJACK_BAD_RATE);
    CHECK(one[0] == 55 && one[1] == 55);
    CHECK(birchjack_total_length(day, 3, 65538, &all) == BIRCHJACK_BAD_RATE && all[0] == 55 && all[1] == 55);
}

static void counts(void) {
    uint32_t out[2] = {55, 55};
    /* no voice refuses all, fewer requests than voices refuse none */
    CHECK(birchjack_turned_away(0, 4, 8, 3, &out) == 0 && out[0] == 65536 && out[1] == 0);
    CHECK(birchjack_turned_away(16, 4, 8, 0, &out) == 0 && out[0] == 0 && out[1] == 65536);
    CHECK(birchjack_turned_away(2, 2, 2, 1, &out) == 0 && out[0] == 1 && out[1] == 3);
    CHECK(birchjack_turned_away(8, 4, 8, 0, &out) == 0 && out[0] == 65536 && out[1] == 0);
    CHECK(birchjack_turned_away(8, 4, 8, 3, &out) == 0 && out[0] == 1 && out[1] == 65535);
    /* all that is counted: the two add up to k to the power n */
    for (uint8_t voices = 0; voices <= 16; voices++) {
        for (uint8_t k = 1; k <= 4; k++) {
            uint32_t all = 1;
            for (uint8_t n = 0; n <= 8; n++, all *= k) {
                for (uint8_t p = 0; p < k; p++) {
                    CHECK(birchjack_turned_away(voices, k, n, p, &out) == 0 && out[0] + out[1] == all);
                    CHECK(voices != 0 || out[0] == all);
                    CHECK(n >= voices || out[0] == 0);
                }
            }
        }
    }
    out[0] = out[1] = 55;
    static const uint8_t past[8][4] = {{17, 4, 8, 0}, {255, 4, 8, 0}, {2, 0, 8, 0}, {2, 5, 8, 0},
                                       {2, 4, 9, 0}, {2, 4, 255, 0}, {2, 4, 8, 4}, {2, 1, 0, 255}};
    for (int i = 0; i < 8; i++) {
        const uint8_t *c = past[i];
        CHECK(birchjack_turned_away(c[0], c[1], c[2], c[3], &out) == BIRCHJACK_NOT_COUNTED);
    }
    CHECK(out[0] == 55 && out[1] == 55);
}

static void evacuation(void) {
    uint8_t cells[80], b = 55;
    uint32_t n = 55;
    CHECK(birchjack_evacuation_cycle(20, &n) == 0 && n == 80);
    CHECK(birchjack_evacuation_sounds(20, 9, &b) == 0 && b == 1);
    CHECK(birchjack_evacuation_sounds(20, 10, &b) == 0 && b == 0);
    CHECK(birchjack_evacuation_sounds(20, UINT64_MAX, &b) == 0 && b == 0); /* 15 modulo 80 */
    CHECK(birchjack_evacuation_fill(20, 80, cells, 80) == 0);
    for (uint64_t i = 0; i < 80; i++) {
        CHECK(birchjack_evacuation_sounds(20, i, &b) == 0 && cells[i] == b);
    }
    CHECK(birchjack_evacuation_reads(20, cells, 80, &b) == 0 && b == 1);
    CHECK(birchjack_evacuation_reads(20, cells, 50, &b) == 0 && b == 0);
    CHECK(birchjack_evacuation_reads(20, cells, 0, &b) == 0 && b == 0);
    cells[0] = 2;
    CHECK(birchjack_evacuation_reads(20, cells, 80, &b) == 0 && b == 0);
    b = 55;
    n = 55;
    CHECK(birchjack_evacuation_cycle(19, &n) == BIRCHJACK_LOW_RATE && n == 55);
    CHECK(birchjack_evacuation_sounds(0, 0, &b) == BIRCHJACK_LOW_RATE && b == 55);
    CHECK(birchjack_evacuation_fill(65538, 0, cells, 80) == BIRCHJACK_BAD_RATE && cells[0] == 2);
    CHECK(birchjack_evacuation_reads(UINT32_MAX, cells, 80, &b) == BIRCHJACK_BAD_RATE && b == 55);
}

static void envelope(void) {
    static const uint8_t levels[8] = {63, 159, 231, 255, 192, 96, 24, 0};
    uint8_t held[8], left[4];
    CHECK(birchjack_envelope(4, 4, 0, 4, 1000, held, 8, left, 4) == 0);
    CHECK(memcmp(held, levels, 8) == 0 && left[0] == 0 && left[3] == 0);
    /* let go at the top, it falls in four ticks */
    CHECK(birchjack_envelope(4, 4, 0, 4, 1000, held, 4, left, 4) == 0);
    CHECK(memcmp(held, levels, 4) == 0 && memcmp(left, levels + 4, 4) == 0);
    memset(held, 9, 8);
    memset(left, 9, 4);
    CHECK(birchjack_envelope(4, 4, 0, 4, 65538, held, 8, left, 4) == BIRCHJACK_BAD_RATE);
    CHECK(held[0] == 9 && held[7] == 9 && left[0] == 9 && left[3] == 9);
}

static void bank(void) {
    uint32_t entry[8], kept[8], part[2] = {55, 55};
    static const uint32_t fields[8] = {7, 0, 0, 255, 440, 0, 26, 2};
    CHECK(birchjack_find(bell, 28, 8000, 1, 7, &entry) == 0 && memcmp(entry, fields, sizeof entry) == 0);
    memset(entry, 9, sizeof entry);
    memcpy(kept, entry, sizeof entry);
    CHECK(birchjack_find(bell, 28, 8000, 1, 8, &entry) == BIRCHJACK_EFFECT_NOT_FOUND);
    CHECK(birchjack_find(bell, 28, 65538, 1, 7, &entry) == BIRCHJACK_BAD_RATE);
    CHECK(birchjack_find(bell, 25, 8000, 1, 7, &entry) == BIRCHJACK_TRUNCATED_BANK);
    uint8_t odd[28];
    memcpy(odd, bell, 28);
    odd[12] = 6;
    CHECK(birchjack_find(odd, 28, 8000, 1, 7, &entry) == BIRCHJACK_INVALID_EFFECT_KIND);
    CHECK(memcmp(entry, kept, sizeof entry) == 0);

    CHECK(birchjack_payload(bell, 28, 8000, 1, 26, 2) == 0);
    CHECK(birchjack_payload(bell, 28, 8000, 1, 28, 0) == 0);
    CHECK(birchjack_payload(bell, 28, 8000, 1, 27, 2) == BIRCHJACK_BAD_LENGTH);
    CHECK(birchjack_payload(bell, 28, 8000, 1, 28, 1) == BIRCHJACK_BAD_LENGTH);
    CHECK(birchjack_payload(bell, 28, 8000, 1, 29, 0) == BIRCHJACK_BAD_OFFSET);
    CHECK(birchjack_payload(bell, 28, 8000, 1, UINT32_MAX, UINT32_MAX) == BIRCHJACK_BAD_OFFSET);
    CHECK(birchjack_payload(bell, 25, 8000, 1, 0, 0) == BIRCHJACK_TRUNCATED_BANK);
    CHECK(birchjack_payload_of(bell, 27, 8000, 1, 7, &part) == BIRCHJACK_BAD_LENGTH);
    CHECK(birchjack_payload_of(bell, 28, 8000, 1, 8, &part) == BIRCHJACK_EFFECT_NOT_FOUND);
    CHECK(part[0] == 55 && part[1] == 55);
    CHECK(birchjack_payload_of(bell, 28, 8000, 1, 7, &part) == 0 && part[0] == 26 && part[1] == 2);
    CHECK(bell[part[0]] == 1 && bell[part[0] + part[1] - 1] == 2);
}

/* Requests, of which each outcome is told. */
static void writing(void) {
    static const uint8_t header[10] = {1, 2, 3, 4, 5, 6, 7, 8, 9, 10};
    /* id, kind, flags, gain, param0, param1, length */
    static const uint8_t given[26] = {
        0, 9, 3, 1, 200, 1, 184, 0, 150, 0, 0, 0, 3,
        0, 7, 0, 0, 255, 1, 184, 0, 0, 0, 0, 0, 2,
    };
    static const uint8_t payloads[5] = {13, 14, 15, 1, 2};
    static const uint8_t bank[47] = {
        1, 2, 3, 4, 5, 6, 7, 8, 9, 10,
        7, 0, 0, 0, 255, 0, 184, 1, 0, 0, 42, 0, 0, 0, 2, 0,
        9, 0, 3, 1, 200, 0, 184, 1, 150, 0, 44, 0, 0, 0, 3, 0,
        1, 2, 13, 14, 15,
    };
    uint8_t out[49], kept[49], more[26];
    size_t len = 55;
    memset(kept, 0xA5, sizeof kept);
    memset(out, 0xA5, sizeof out);
    CHECK(birchjack_write_bank(&header, given, 26, payloads, 5, out, 46, &len) == BIRCHJACK_SHORT_BUFFER);
    CHECK(birchjack_write_bank(&header, given, 26, payloads, 4, out, 0, &len) == BIRCHJACK_BAD_ENTRIES);
    memcpy(more, given, 26);
    more[14] = 9;
    CHECK(birchjack_write_bank(&header, more, 26, payloads, 5, out, 49, &len) == BIRCHJACK_BAD_ENTRIES);
    more[14] = 7;
    more[15] = 6;
    CHECK(birchjack_write_bank(&header, more, 26, payloads, 5, out, 49, &len) == BIRCHJACK_BAD_ENTRIES);
    CHECK(len == 55 && memcmp(out, kept, sizeof out) == 0);
    CHECK(birchjack_write_bank(&header, given, 26, payloads, 5, out, 49, &len) == 0 && len == 47);
    CHECK(memcmp(out, bank, 47) == 0 && out[47] == 0xA5 && out[48] == 0xA5);
    CHECK(birchjack_write_bank(&header, given, 12, payloads, 0, out, 49, &len) == 0 && len == 10);
}

static void requests(void) {
    /* at priorities 3, 5, 6, 5 and 7, the last for an id that the bank has not */
    uint8_t asked[50];
    for (int i = 0; i < 5; i++) {
        memcpy(asked + 10 * i, ring, 10);
    }
    asked[19] = 5;
    asked[29] = 6;
    asked[39] = 5;
    asked[41] = 8;
    asked[49] = 7;
    uint16_t told[6];
    size_t audible = 55;
    CHECK(birchjack_play(2, false, bell, 28, 8000, 1, ring, 0, told, 0, &audible) == 0 && audible == 0);
    told[5] = 55;
    CHECK(birchjack_play(2, false, bell, 28, 8000, 1, asked, 50, told, 6, &audible) == 0 && audible == 2);
    CHECK(told[0] == 0 && told[1] == 1 && told[2] == 0);
    CHECK(told[3] == 256 * BIRCHJACK_VOICE_BUSY + 255 && told[4] == 256 * BIRCHJACK_EFFECT_NOT_FOUND + 255 && told[5] == 55);
    /* only a free voice is taken; there are cells for three outcomes */
    told[3] = 55;
    CHECK(birchjack_play(2, true, bell, 28, 8000, 1, asked, 50, told, 3, &audible) == 0 && audible == 2);
    CHECK(told[1] == 1 && told[2] == 256 * BIRCHJACK_VOICE_BUSY + 255 && told[3] == 55);
    told[0] = 55;
    audible = 55;
    CHECK(birchjack_play(17, false, bell, 28, 8000, 1, asked, 50, told, 6, &audible) == BIRCHJACK_VOICE_COUNT);
    CHECK(birchjack_play(2, false, bell, 28, 65538, 1, asked, 50, told, 6, &audible) == BIRCHJACK_BAD_RATE);
    CHECK(birchjack_play(2, false, bell, 25, 8000, 1, asked, 50, told, 6, &audible) == BIRCHJACK_TRUNCATED_BANK);
    CHECK(told[0] == 55 && audible == 55);
}

static void frames(void) {
    int16_t mono[33], stereo[33];
    uint16_t duty[33], d;
    static const uint8_t left = 0;
    const uint8_t none = BIRCHJACK_NO_POLYBLEP;
    CHECK(birchjack_pcm_i16(2, false, 255, bell, 28, 8000, 1, ring, 10, none, 0, 0, mono, 33) == 0);
    stereo[32] = 55;
    CHECK(birchjack_stereo_i16(2, false, 255, bell, 28, 8000, 1, ring, 10, none, 0, 0, &left, 1, stereo, 33) == 0 && stereo[32] == 55);
    CHECK(birchjack_duty(2, false, 255, 500, false, false, bell, 28, 8000, 1, ring, 10, none, 0, 0, duty, 33) == 0);
    bool silent = true, one_sided = false;
    for (int i = 0; i < 33; i++) {
        silent = silent && mono[i] == 0;
        CHECK(mono[i] % 256 == 0);
        CHECK(birchjack_duty_of((int8_t)(mono[i] / 256), 500, &d) == 0 && d == duty[i]);
    }
    for (int i = 0; i < 32; i += 2) {
        one_sided = one_sided || stereo[i] != 0;
        CHECK(stereo[i + 1] == 0);
    }
    CHECK(!silent && one_sided);
    /* a sawtooth on voice 0 sounds otherwise */
    CHECK(birchjack_pcm_i16(2, false, 255, bell, 28, 8000, 1, ring, 10, 1, 440, 1000, stereo, 33) == 0);
    CHECK(memcmp(stereo, mono, sizeof mono) != 0);
}

/* The ring, then requests left under labels: the ring at priorities 4, 5 and, for an id that the bank has not, 9, and one under a label that waits. */
static void waiting(void) {
    static const uint8_t more[4][3] = {{100, 7, 4}, {200, 7, 5}, {30, 8, 9}, {200, 7, 7}};
    uint8_t left[48], numbers[5];
    for (int i = 0; i < 4; i++) {
        uint8_t *l = left + 12 * i;
        l[0] = 0;
        l[1] = more[i][0];
        memcpy(l + 2, ring, 10);
        l[3] = more[i][1];
        l[11] = more[i][2];
    }
    int16_t mono[33], both[33];
    uint16_t labels[32], dropped[2];
    size_t count = 55;
    uint8_t asked[20];
    memcpy(asked, ring, 10);
    memcpy(asked + 10, left + 14, 10);
    numbers[4] = 55;
    /* no voice is free: all wait, and the ring sounds alone */
    CHECK(birchjack_waiting_pcm_i16(1, false, 255, bell, 28, 8000, 1, ring, 10, left, 48, numbers, 5, mono, 33, &labels, &count, &dropped) == 0);
    CHECK(numbers[0] == 0 && numbers[1] == 0 && numbers[2] == 0 && numbers[3] == BIRCHJACK_LABEL_WAITING && numbers[4] == 55);
    CHECK(count == 3 && labels[0] == 30 && labels[1] == 200 && labels[2] == 100 && labels[3] == 0 && labels[31] == 0);
    CHECK(dropped[0] == 0 && dropped[1] == 0);
    CHECK(birchjack_pcm_i16(1, false, 255, bell, 28, 8000, 1, ring, 10, BIRCHJACK_NO_POLYBLEP, 0, 0, both, 33) == 0);
    CHECK(memcmp(mono, both, sizeof mono) == 0);
    /* a voice is free: the unknown one is dropped, and the one at priority 5 goes in; eleven bytes at the end are none */
    CHECK(birchjack_waiting_pcm_i16(2, false, 255, bell, 28, 8000, 1, ring, 10, left, 47, numbers, 1, mono, 33, &labels, &count, &dropped) == 0);
    CHECK(count == 1 && labels[0] == 100 && labels[1] == 0);
    CHECK(dropped[0] == BIRCHJACK_EFFECT_NOT_FOUND && dropped[1] == 30);
    CHECK(birchjack_pcm_i16(2, false, 255, bell, 28, 8000, 1, asked, 20, BIRCHJACK_NO_POLYBLEP, 0, 0, both, 33) == 0);
    CHECK(memcmp(mono, both, sizeof mono) == 0);

    /* 33 labels, and the first again */
    uint8_t many[34 * 12], told[34];
    for (int i = 0; i < 34; i++) {
        memcpy(many + 12 * i, left, 12);
        many[12 * i + 1] = (uint8_t)(i % 33);
    }
    CHECK(birchjack_waiting_pcm_i16(1, false, 255, bell, 28, 8000, 1, ring, 10, many, sizeof many, told, 34, mono, 1, &labels, &count, &dropped) == 0);
    CHECK(count == 32 && told[31] == 0 && told[32] == BIRCHJACK_LINE_FULL && told[33] == BIRCHJACK_LABEL_WAITING);
    for (uint16_t i = 0; i < 32; i++) {
        CHECK(labels[i] == i);
    }
    told[0] = 55;
    count = 55;
    CHECK(birchjack_waiting_pcm_i16(17, false, 255, bell, 28, 8000, 1, ring, 10, many, 12, told, 34, mono, 1, &labels, &count, &dropped) == BIRCHJACK_VOICE_COUNT);
    CHECK(told[0] == 55 && count == 55 && labels[31] == 31);
}

static void refused_frames(void) {
    int16_t pcm[3] = {55, 55, 55};
    uint16_t duty[3] = {55, 55, 55};
    /* voices, rate, bytes of the bank, period, answer */
    static const uint32_t cases[4][5] = {{17, 8000, 28, 1000, BIRCHJACK_VOICE_COUNT},
                                         {2, 65538, 28, 1000, BIRCHJACK_BAD_RATE},
                                         {2, 8000, 25, 1000, BIRCHJACK_TRUNCATED_BANK},
                                         {2, 8000, 28, 1, BIRCHJACK_BAD_PERIOD}};
    for (int i = 0; i < 4; i++) {
        const uint32_t *c = cases[i];
        CHECK(birchjack_duty(c[0], false, 255, (uint16_t)c[3], true, true, bell, c[2], c[1], 1, ring, 10, 1, 440, 9, duty, 3) == c[4]);
        if (i < 3) {
            CHECK(birchjack_pcm_i16(c[0], false, 255, bell, c[2], c[1], 1, ring, 10, 1, 440, 9, pcm, 3) == c[4]);
            CHECK(birchjack_stereo_i16(c[0], false, 255, bell, c[2], c[1], 1, ring, 10, 1, 440, 9, ring, 2, pcm, 3) == c[4]);
        }
    }
    for (int i = 0; i < 3; i++) {
        CHECK(pcm[i] == 55 && duty[i] == 55);
    }
}

/* Document 02's list of frames, as a replay script: two voices, a square tone of 1,000 Hz, three duties, then a bad line. */
static void scripts(void) {
    static const char script[] = "700200003E8003E800FF00\n15000003E8000000\n200003\n\n4540\n";
    static const char answer[] = "00\n000301FF021B0246\nFFFF\n";
    const uint8_t *bytes = (const uint8_t *)script;
    size_t length = sizeof script - 1;
    uint8_t out[64];
    bool good = true;
    CHECK(birchjack_answers(bytes, length, out, 0, &good) == sizeof answer - 1 && !good);
    memset(out, '.', sizeof out);
    CHECK(birchjack_answers(bytes, length, out, sizeof out, &good) == sizeof answer - 1 && !good);
    CHECK(memcmp(out, answer, sizeof answer - 1) == 0 && out[sizeof answer - 1] == '.');
    /* with room for five bytes five are written */
    memset(out, '.', sizeof out);
    CHECK(birchjack_answers(bytes, length, out, 5, &good) == sizeof answer - 1);
    CHECK(memcmp(out, "00\n00.", 6) == 0);
    /* without the bad line, and the last without its newline, the run is good */
    CHECK(birchjack_answers(bytes, length - 7, out, sizeof out, &good) == sizeof answer - 1 - 5 && good);

    int16_t cells[8];
    static const uint16_t duty[3] = {0x01FF, 0x021B, 0x0246};
    for (int i = 0; i < 8; i++) {
        cells[i] = 0x55;
    }
    CHECK(birchjack_sound(bytes, length, cells, 8, &good) == 6 && !good);
    for (int i = 0; i < 3; i++) {
        uint16_t d;
        CHECK(cells[2 * i] == cells[2 * i + 1]);
        CHECK(birchjack_duty_of((int8_t)(cells[2 * i] / 256), 1000, &d) == 0 && d == duty[i]);
    }
    CHECK(cells[6] == 0x55 && cells[7] == 0x55);
}

int main(void) {
    numbers();
    limits();
    duties();
    lengths();
    counts();
    evacuation();
    envelope();
    bank();
    writing();
    requests();
    frames();
    waiting();
    refused_frames();
    scripts();
    printf("c: %d checks\n", checks);
    return 0;
}
