/* The calls of Birchjack's static library (docs/HOSTS.md). Every call is proved: it ends, it traps nowhere, and it gives what its
 * definition in the specs of crates/exports, crates/exports_play or crates/exports_replay says, for all arguments.
 *
 * What a call is lent it lends back: nothing is kept, nothing is allocated, and there is no state between calls. A buffer is a pointer
 * and a number of elements. The pointer is never NULL, not even where the number is 0, and no buffer that is written overlaps another.
 *
 * A call that may be refused answers 0 or a number of enum birchjack_refusal, and gives its value through the pointer `out`; where it
 * is refused, nothing is written.
 *
 * The rules are the present ones: document 01's as document 02 changes them. A gain of 255 hands the sample through, in birchjack_gain and
 * in a box's envelopes, voices, pans and master. Only a script may open document 01's box, by its record 10. */
#ifndef BIRCHJACK_H
#define BIRCHJACK_H

#include <stdbool.h>
#include <stddef.h>
#include <stdint.h>

#ifdef __cplusplus
extern "C" {
#endif

/* Why a call is turned down. */
enum birchjack_refusal {
    BIRCHJACK_ACCEPTED = 0,
    BIRCHJACK_VOICE_COUNT = 1,         /* more than 16 voices */
    BIRCHJACK_BAD_RATE = 2,            /* sample rate above 65,537 */
    BIRCHJACK_BAD_PERIOD = 3,          /* PWM period below 2 */
    BIRCHJACK_TRUNCATED_BANK = 4,      /* entries go past the bank's bytes */
    BIRCHJACK_VOICE_BUSY = 5,          /* no voice for the request */
    BIRCHJACK_NO_BANK = 6,             /* no bank set */
    BIRCHJACK_BANK_MISMATCH = 7,       /* another number of bytes lent than set */
    BIRCHJACK_EFFECT_NOT_FOUND = 8,    /* no entry has the id */
    BIRCHJACK_INVALID_EFFECT_KIND = 9, /* an entry's kind byte is above 5 */
    BIRCHJACK_NOT_CARRIED = 10,        /* an entry of a kind with stored samples */
    BIRCHJACK_BAD_SUM = 11,            /* a sum outside -2,048..2,032 */
    BIRCHJACK_LOW_RATE = 12,           /* an evacuation pattern or its reader at a rate below 20 */
    BIRCHJACK_BAD_ENTRIES = 13,        /* entries that make no bank */
    BIRCHJACK_SHORT_BUFFER = 14,       /* a buffer shorter than what is written to it */
    BIRCHJACK_BAD_OFFSET = 15,         /* a payload's offset is past the end of the bank */
    BIRCHJACK_BAD_LENGTH = 16,         /* a payload runs past the end of the bank */
    BIRCHJACK_LINE_FULL = 17,          /* 32 requests are waiting */
    BIRCHJACK_LABEL_WAITING = 18,      /* a request is waiting under the label already */
    BIRCHJACK_NOT_WAITING = 19,        /* no request is waiting under the label */
    BIRCHJACK_NOT_COUNTED = 22         /* a site past what is counted: voices, priorities, requests or priority */
};

/* ---- numbers alone */

/* floor(sample * gain_q8 / 256); the sample itself for a gain of 255 */
int8_t birchjack_gain(int8_t sample, uint8_t gain_q8);

/* a + truncated((b - a) * fraction / 256) */
int8_t birchjack_lerp(int8_t a, int8_t b, uint8_t fraction);

/* The gains of a pan, 128 being the middle: left, right. */
void birchjack_pan_gains(uint8_t pan_q8, uint8_t (*out)[2]);

/* What a 32-bit phase gains with each sample; 0 for a rate of 0. */
uint32_t birchjack_phase_increment(uint32_t freq_hz, uint32_t sample_rate_hz);

/* The sine at an index of 256. */
int8_t birchjack_sine(uint8_t index);

/* The bus limiter alone; 11 for a sum outside -2,048..2,032. */
uint8_t birchjack_limit(int32_t sum, int8_t *out);

/* A sample's compare value in a period; 3 for a period below 2. */
uint8_t birchjack_duty_of(int8_t sample, uint16_t period, uint16_t *out);

/* What a fade gains with each frame, of 255. The product duration_ms * sample_rate_hz is taken modulo 2^32. */
uint8_t birchjack_fade_step(uint16_t duration_ms, uint32_t sample_rate_hz);

/* ---- lengths in samples with what is left over, so that many in a row do not drift (docs/LENGTHS.md): whole samples, then the remainder in
 * thousandths of a sample, below 1,000. 2 for a rate above 65,537. */

/* A length: ms * sample_rate_hz is 1000 * samples + remainder. */
uint8_t birchjack_length(uint16_t ms, uint32_t sample_rate_hz, uint32_t (*out)[2]);

/* The same with the remainder of the one before, or any other number of thousandths, added before it is divided. */
uint8_t birchjack_length_carrying(uint16_t ms, uint32_t sample_rate_hz, uint32_t remainder, uint32_t (*out)[2]);

/* The total of a list, in one call: what the calls above give in turn, begun with remainder 0. */
uint8_t birchjack_total_length(const uint16_t *lengths, size_t lengths_len, uint32_t sample_rate_hz, uint64_t (*out)[2]);

/* ---- planning a site (docs/PLANNING.md) */

/* How often a signal would be turned away: of all lists of so many sound requests, of priorities 0 to `priorities` - 1, to a silent box of so
 * many voices under LowestPriorityOldest, those after which a sound request of that priority is refused, and those after which it is accepted. The
 * two add up to `priorities` to the power `requests`. 22 for `priorities` outside 1 to 4, more than 8 requests, more than 16 voices, or a priority
 * that is not below `priorities`. */
uint8_t birchjack_turned_away(uint8_t voices, uint8_t priorities, uint8_t requests, uint8_t priority, uint32_t (*out)[2]);

/* ---- an envelope alone */

/* A triggered envelope's level after each tick: as many as there are cells in `held`, then it is released, and as many as there are in
 * `left`. 2 for a rate above 65,537. */
uint8_t birchjack_envelope(uint16_t attack_ms, uint16_t decay_ms, uint8_t sustain_q8, uint16_t release_ms, uint32_t sample_rate_hz,
                           uint8_t *held, size_t held_len, uint8_t *left, size_t left_len);

/* ---- the evacuation pattern, three pulses and a long pause (docs/STANDARD.md): 12 for a rate below 20, 2 for one above 65,537 */

/* How many samples a cycle has. */
uint8_t birchjack_evacuation_cycle(uint32_t sample_rate_hz, uint32_t *out);

/* Whether it sounds at a sample, counted from its start: 1 or 0. */
uint8_t birchjack_evacuation_sounds(uint32_t sample_rate_hz, uint64_t sample, uint8_t *out);

/* The same for each cell, from the sample `first` on; it counts on past the last 64-bit number. */
uint8_t birchjack_evacuation_fill(uint32_t sample_rate_hz, uint64_t first, uint8_t *out, size_t out_len);

/* Whether a recording, a byte a sample, 1 on and 0 off, is one or more whole cycles, each phase within one tenth of its length: 1 or 0. */
uint8_t birchjack_evacuation_reads(uint32_t sample_rate_hz, const uint8_t *recording, size_t recording_len, uint8_t *out);

/* ---- a bank, which is set for the call: 2 for a rate above 65,537, 4 where its entries go past its bytes */

/* The entry with an id: id, kind, flags, gain, param0, param1, offset, length. 8 and 9 as above. */
uint8_t birchjack_find(const uint8_t *bytes, size_t bytes_len, uint32_t sample_rate_hz, uint16_t effect_count, uint16_t id,
                       uint32_t (*out)[8]);

/* Whether a payload is there: 0, and then it is bytes[offset] up to bytes[offset + len]; 15 for an offset past the end of the bank, 16 for a
 * payload that runs past it. 4 where the entries do. */
uint8_t birchjack_payload(const uint8_t *bytes, size_t bytes_len, uint32_t sample_rate_hz, uint16_t effect_count, uint32_t offset,
                          uint32_t len);

/* The payload of the entry with an id: its offset in the bytes and its length. 4, 8, 9, 15 and 16 as above. */
uint8_t birchjack_payload_of(const uint8_t *bytes, size_t bytes_len, uint32_t sample_rate_hz, uint16_t effect_count, uint16_t id,
                             uint32_t (*out)[2]);

/* ---- writing a bank */

/* The bank of up to 64 entries with ids of their own, at the front of `out`: the header's ten bytes as given, the entries by rising id, then
 * the payloads in the same order without gaps; and its length. Cells behind it are not written. An entry has thirteen bytes, big-endian:
 * id (2), kind (1), flags (1), gain (1), param0 (2), param1 (2), length of its payload (4); bytes behind the last whole one are not read. The
 * payloads are lent end to end, in the order of the entries. 13 for more than 64 entries, a kind above 5, a payload over 65,535 bytes,
 * lengths that do not add up to the payloads lent, or an id twice; then 14 for a buffer that is shorter than the bank. */
uint8_t birchjack_write_bank(const uint8_t (*header)[10], const uint8_t *entries, size_t entries_len, const uint8_t *payloads,
                             size_t payloads_len, uint8_t *out, size_t out_len, size_t *len);

/* ---- a box that lives for the call: n voices, a policy (free_only: FreeChannelOnly, else LowestPriorityOldest), a master gain, this
 * bank, and the requests played one after another. A request has ten bytes, big-endian: id (2), attack (2), decay (2), sustain (1),
 * release (2), priority (1). Then voice 0 sounds PolyBLEP of a frequency for so many milliseconds: 0 sine, 1 sawtooth, 2 square,
 * 3 triangle; of any other number none. 1 for more than 16 voices, 2 for a rate above 65,537, 3 for a period below 2, 4 where the
 * bank's entries go past its bytes. */

#define BIRCHJACK_NO_POLYBLEP 255

/* Each request's outcome, as far as there are cells: the voice that it got, or 256 * its refusal's number + 255. And how many voices
 * are audible then. */
uint8_t birchjack_play(size_t n, bool free_only, const uint8_t *bytes, size_t bytes_len, uint32_t sample_rate_hz, uint16_t effect_count,
                       const uint8_t *requests, size_t requests_len, uint16_t *outcomes, size_t outcomes_len, size_t *audible);

/* A mono frame in each cell. */
uint8_t birchjack_pcm_i16(size_t n, bool free_only, uint8_t master_gain_q8, const uint8_t *bytes, size_t bytes_len,
                          uint32_t sample_rate_hz, uint16_t effect_count, const uint8_t *requests, size_t requests_len,
                          uint8_t polyblep_waveform, uint32_t polyblep_hz, uint16_t polyblep_ms, int16_t *out, size_t out_len);

/* The same without PolyBLEP, for a box to which requests are left under labels, after the others were played: at the start of a frame, while a voice
 * is free, the one of highest priority goes in, the earliest left among equals; one whose entry fails is dropped. Up to 32 wait. A request that is left
 * has twelve bytes: label (2), then the ten of a request; bytes behind the last whole one are not read. Each one's number goes into `numbers`, as far as
 * there are cells: 0, 18 where its label is waiting, or 17 where 32 are. After the frames: the labels that wait, next first, 0 in the cells past them, and
 * how many they are; and the number and label of the latest that was dropped, 0 and 0 where none was. */
uint8_t birchjack_waiting_pcm_i16(size_t n, bool free_only, uint8_t master_gain_q8, const uint8_t *bytes, size_t bytes_len,
                                  uint32_t sample_rate_hz, uint16_t effect_count, const uint8_t *requests, size_t requests_len,
                                  const uint8_t *left, size_t left_len, uint8_t *numbers, size_t numbers_len, int16_t *out,
                                  size_t out_len, uint16_t (*labels)[32], size_t *count, uint16_t (*dropped)[2]);

/* A stereo frame in each pair of cells (an odd last is not written), with a pan for each voice from voice 0 on. */
uint8_t birchjack_stereo_i16(size_t n, bool free_only, uint8_t master_gain_q8, const uint8_t *bytes, size_t bytes_len,
                             uint32_t sample_rate_hz, uint16_t effect_count, const uint8_t *requests, size_t requests_len,
                             uint8_t polyblep_waveform, uint32_t polyblep_hz, uint16_t polyblep_ms, const uint8_t *pans,
                             size_t pans_len, int16_t *out, size_t out_len);

/* A compare value in each cell, in a period: linear, or shaped, of first or of second order. */
uint8_t birchjack_duty(size_t n, bool free_only, uint8_t master_gain_q8, uint16_t period, bool shaped, bool second_order,
                       const uint8_t *bytes, size_t bytes_len, uint32_t sample_rate_hz, uint16_t effect_count, const uint8_t *requests,
                       size_t requests_len, uint8_t polyblep_waveform, uint32_t polyblep_hz, uint16_t polyblep_ms, uint16_t *out,
                       size_t out_len);

/* ---- a whole replay script (docs/REPLAY.md), which drives one box at a time through any of its calls, fades of both kinds among them (14, and
 * 73 after which the sound goes on): record 70 opens one of the present rules, record 10 document 01's. As much as there is room for is written,
 * and the length of all of it is the answer, as with snprintf: call once with out_len 0 to ask for the length. *good says whether no line is bad;
 * a bad line ends the run. These two need some 400 KB of stack. */

/* The answers of the lines, in bytes. */
size_t birchjack_answers(const uint8_t *script, size_t script_len, uint8_t *out, size_t out_len, bool *good);

/* The sound of the lines: 16-bit stereo cells, left before right, of every frame that the lines ask for. */
size_t birchjack_sound(const uint8_t *script, size_t script_len, int16_t *out, size_t out_len, bool *good);

#ifdef __cplusplus
}
#endif

#endif
