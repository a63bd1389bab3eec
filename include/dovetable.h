/*
 * Dovetable: the mask builder of a spectral note gate. Link libspectral_dsp_c.a, which needs
 * nothing but the C library; x86-64, C11 or C++.
 *
 * An open call returns 0 when it is done, else the number of a refusal (DovetableRefusal). When
 * done it writes its results and leaves *place alone; when refused it writes *place and nothing
 * else: an index where the refusal has one, else 0. dovetable_read_scene, the three calls that
 * change a bank of voices, dovetable_request and dovetable_serve return the number, the place and
 * their result in one struct. They write nothing, but dovetable_serve writes its masks when it is
 * done and has named a strip. dovetable_new_bank, dovetable_new_mixer and dovetable_turn write
 * nothing, return their result and are never refused. The comment of a call lists its tests under
 * the number of the refusal that a failed test gives. They run in the order of the numbers, but 9
 * and 11 run before all others, and of several bad entries the lowest is named. NaN is outside
 * every limit; the ends of a limit are inside.
 *
 * A slice is passed as a pointer and the number of its entries, all of which must exist. A null
 * pointer with 0 entries is an empty slice. Memory that a call writes must not overlap anything
 * else passed to it. Pointers to a single value or place must not be null. No call allocates or
 * keeps a pointer, and calls on different memory may run at the same time.
 */
#ifndef DOVETABLE_H
#define DOVETABLE_H

#include <stdbool.h>
#include <stddef.h>
#include <stdint.h>

#ifdef __cplusplus
extern "C" {
#endif

enum DovetableRefusal {
    DOVETABLE_DONE = 0,
    /* size not a power of two in 64..16,384, or rate outside 8,000..192,000 Hz */
    DOVETABLE_REFUSED_SIZE_OR_RATE = 1,
    /* a setting or lone number outside its limits */
    DOVETABLE_REFUSED_SETTING = 2,
    /* over 128 voices, or a voice added to a bank of 128 */
    DOVETABLE_REFUSED_VOICE_COUNT = 3,
    /* a slice of the wrong length */
    DOVETABLE_REFUSED_LENGTH = 4,
    /* a voice outside its limits; place: voice */
    DOVETABLE_REFUSED_VOICE = 5,
    /* a table entry from 1 on not in -2..17; place: entry */
    DOVETABLE_REFUSED_TABLE_ENTRY = 6,
    /* a level, gain or window value outside its limits; place: entry */
    DOVETABLE_REFUSED_VALUE = 7,
    /* overlap not in 1..16 or not dividing the length */
    DOVETABLE_REFUSED_OVERLAP = 8,
    /* a record of the wrong length, or with a forbidden bit set */
    DOVETABLE_REFUSED_RECORD = 9,
    /* an id that is in the bank already, or is not in it */
    DOVETABLE_REFUSED_ID = 10,
    /* a strip above 15 */
    DOVETABLE_REFUSED_STRIP = 11
};

enum {
    DOVETABLE_CURVE_POINTS = 8193, /* of a drawn curve */
    DOVETABLE_NOTES = 128,         /* of a bank of note levels */
    DOVETABLE_HELD_BYTES = 16,     /* of the held notes */
    DOVETABLE_MOST_VOICES = 128,
    DOVETABLE_RECORD_HEAD_BYTES = 31,  /* of a scene record, before its voices */
    DOVETABLE_RECORD_VOICE_BYTES = 29, /* of each of its voices */
    DOVETABLE_STRIPS = 16              /* of a mixer */
};

/* The moving field's shapes. Any other number is refusal 2. */
enum DovetableShape {
    DOVETABLE_RIPPLE = 0,
    DOVETABLE_HARMONIC = 1,
    DOVETABLE_DRIFT = 2,
    DOVETABLE_SCAN = 3,
    DOVETABLE_NOTCH = 4,
    DOVETABLE_SAW = 5,
    DOVETABLE_SPRINKLE = 6,
    DOVETABLE_CLOUD = 7
};

/* The forms of a voice's pitch. Any other number is refusal 5 at its voice. */
enum DovetablePitchForm {
    DOVETABLE_PITCH_NOTE = 0, /* a note and its offset in semitones */
    DOVETABLE_PITCH_HERTZ = 1 /* the fundamental itself, with no tuning added */
};

/* A held pitch with its expression. The last five take any finite number. */
struct DovetableVoice {
    uint8_t pitch_form;       /* a DovetablePitchForm */
    uint8_t note;             /* 0..127; ignored for hertz */
    float semitones_or_hertz; /* for a note -48..48, offset from its equal-tempered pitch; for hertz
                               * 1..20,000 */
    float level;              /* 0..1, note envelope level; 0 contributes nothing */
    float pressure;           /* clamped to 0..1 */
    float timbre;             /* clamped to 0..1; 0.5 keeps the rolloff, lower values darken the
                               * partials, higher values brighten them */
    float volume_gain;        /* base strength, including velocity */
    float expression_gain;    /* linear gain of the note-opened component, not of the background */
    float pan;                /* clamped: -1 left through 0 center to +1 right; ignored in mono */
};

/* A mask's settings. All are tested, including those that a call does not use. */
struct DovetableSettings {
    float sample_rate;   /* 8,000..192,000 Hz */
    size_t fft_size;     /* a power of two in 64..16,384 */
    float note_depth_db; /* 0..144: attenuation away from held notes */
    bool note_layer_enabled;
    float width_cents;                    /* 1..1,200 */
    size_t partials;                      /* 1..24 */
    float harmonic_rolloff_db_per_octave; /* 0..48 */
    uint32_t motion_shape;                /* a DovetableShape */
    float motion_depth_db;                /* 0..96: attenuation where the field is closed */
    float motion_phase;                   /* any finite: position in a cycle of length 1 */
    float motion_size_octaves;            /* 0..100 */
};

/* A scene: what a record holds. */
struct DovetableScene {
    struct DovetableSettings settings;
    size_t count; /* of the voices in use, from the first; the others are ignored */
    struct DovetableVoice voices[DOVETABLE_MOST_VOICES];
};

/* What dovetable_read_scene returns. When done: 0, place 0 and the scene, in which the note of a
 * voice by hertz is 0, and the voices past the count are notes 0 with 0 in every other field. When
 * refused: the number, the place and a blank scene, which has 0 in every field. */
struct DovetableSceneRead {
    uint32_t number; /* 0, or a DovetableRefusal */
    size_t place;
    struct DovetableScene scene;
};

/* A bank of voices: a block of fixed size that the caller owns. It may be copied and kept, but its
 * fields are the calls' own and are not to be written: dovetable_new_bank gives the first bank, and
 * each other one is handed back by a call. */
struct DovetableBank {
    uint16_t ids[DOVETABLE_MOST_VOICES];
    struct DovetableVoice voices[DOVETABLE_MOST_VOICES]; /* the note of a voice by hertz is 0 */
    size_t count; /* of the places in use, from the first, in the order of arrival */
};

/* What the calls that change a bank return. When done: 0 and the changed bank. When refused: the
 * number and the bank as it came. The place is always 0. */
struct DovetableBanked {
    uint32_t number; /* 0, or a DovetableRefusal */
    size_t place;
    struct DovetableBank bank;
};

/* A mixer: a block of fixed size that the caller owns. It may be copied, kept and read, but its
 * fields are the calls' own and are not to be written: dovetable_new_mixer gives the first mixer,
 * and each other one is handed back by a call. */
struct DovetableMixer {
    size_t strips[DOVETABLE_STRIPS]; /* the strips that wait, the longest wait first */
    size_t count;                    /* of the places in use, from the first */
    uint64_t served;                 /* the turns that found someone waiting */
};

/* What dovetable_request returns. When done: 0 and the mixer in which the strip waits. When
 * refused: the number and the mixer as it came. The place is always 0. */
struct DovetableFiled {
    uint32_t number; /* 0, or a DovetableRefusal */
    size_t place;
    struct DovetableMixer mixer;
};

/* What dovetable_turn returns. Where nobody waits: no name and the mixer as it came. */
struct DovetableTurned {
    bool named;   /* whether someone waited */
    size_t strip; /* the strip that is named, else 0 */
    struct DovetableMixer mixer;
};

/* What dovetable_serve returns: the name and the mixer of the turn, and the number and the place of
 * the stereo call, which are 0 and 0 where nobody is named. */
struct DovetableServed {
    uint32_t number; /* 0, or a DovetableRefusal */
    size_t place;
    bool named;   /* whether someone waited */
    size_t strip; /* the strip that is named, else 0 */
    struct DovetableMixer mixer;
};

/* The strips' scenes, each at its strip's number. */
struct DovetableStripScenes {
    struct DovetableScene scenes[DOVETABLE_STRIPS];
};

/* ---- Single numbers: when done, each writes its value. ---- */

/* Amplitude decibels to a linear gain. Tests: 2, db in -700..700. */
uint32_t dovetable_db_to_gain(float db, float *gain, size_t *place);

/* The frequency of a MIDI note, at A4 = 440 Hz. Tests: 2, note at most 127. */
uint32_t dovetable_note_frequency(uint8_t note, float *hertz, size_t *place);

/* The same with an offset in semitones. Tests: 2, note at most 127, tuning in -48..48. */
uint32_t dovetable_note_frequency_with_tuning(uint8_t note, float tuning_semitones, float *hertz,
                                              size_t *place);

/* The gain of a fully open note centre. Tests: 2, width in 1..1,200. */
uint32_t dovetable_note_emphasis_gain(float width_cents, float *gain, size_t *place);

/* The note layer's gain at an openness. Tests: 2, depth in 0..144, width in 1..1,200, openness
 * finite. */
uint32_t dovetable_note_gate_gain(float note_depth_db, float width_cents, float openness,
                                  float *gain, size_t *place);

/* The drawn curve's gain at a bin. A point of -144 dB or less, or NaN, mutes its bin: gain 0. One
 * above 0 dB counts as 0. Tests: 1, size; 2, bin at most 8,192; 4, a curve of 8,193 points. */
uint32_t dovetable_manual_gain_at_bin(const float *mask_db, size_t points, size_t bin,
                                      size_t fft_size, float *gain, size_t *place);

/* The moving field's openness at a frequency, 0..1. Tests: 2, the shape, frequency in 0..192,000,
 * depth in 0..96, phase finite, size in 0..100. */
uint32_t dovetable_motion_openness(float frequency, uint32_t shape, float depth_db, float phase,
                                   float size_octaves, float *openness, size_t *place);

/* The moving field's attenuation at a frequency. Tests: as dovetable_motion_openness. */
uint32_t dovetable_motion_attenuation_db(float frequency, uint32_t shape, float depth_db,
                                         float phase, float size_octaves, float *attenuation_db,
                                         size_t *place);

/* The gain that compensates for the moving field's attenuation. Tests: 2, the shape, depth, phase,
 * size. */
uint32_t dovetable_motion_compensation_gain(uint32_t shape, float depth_db, float phase,
                                            float size_octaves, float *gain, size_t *place);

/* ---- Envelopes and the frequency table ---- */

/* Advances 128 note envelopes by one frame. Held notes are 16 bytes, note 0 the top bit of byte 0.
 * Tests: 2, elapsed in 0..10, fade in 0..60,000; 4, 128 levels and 16 bytes; 7, levels in 0..1.
 * Writes: levels. */
uint32_t dovetable_advance_note_envelopes(float *levels, size_t notes, const uint8_t *held,
                                          size_t bytes, float elapsed_seconds, float fade_ms,
                                          size_t *place);

/* Fills a frequency table: the logarithm to base 2 of each bin's frequency, 0 at bin 0. Tests: 1,
 * size, rate; 4, a table of size/2 + 1 entries. Writes: table. */
uint32_t dovetable_prepare(float *table, size_t entries, float sample_rate, size_t fft_size,
                           size_t *place);

/* ---- Masks: a gain for each of size/2 + 1 bins ----
 *
 * The points of a drawn curve are decibels, and any float is accepted. A point of -144 or less, or
 * NaN, mutes its bin: gain 0, whatever the voices are. One above 0 counts as 0.
 *
 * Tests, of what the call is given: 1, size, rate; 2, every other setting; 3, at most 128 voices;
 * 4, masks and table of size/2 + 1 entries, curve of 8,193, levels of 128; 5, the voices; 6, the
 * table's entries; 7, levels in 0..1. Writes: every entry of each mask.
 */

/* From 128 note levels, of default voices. */
uint32_t dovetable_build_mask(float *output, size_t output_bins, const float *manual_mask_db,
                              size_t points, const float *note_levels, size_t notes,
                              struct DovetableSettings settings, size_t *place);

/* From voices, without a table. */
uint32_t dovetable_build_mask_with_voices(float *output, size_t output_bins,
                                          const float *manual_mask_db, size_t points,
                                          const struct DovetableVoice *voices, size_t count,
                                          struct DovetableSettings settings, size_t *place);

/* From voices, with a frequency table. */
uint32_t dovetable_build_mask_with_voices_precomputed(
    float *output, size_t output_bins, const float *manual_mask_db, size_t points,
    const struct DovetableVoice *voices, size_t count, struct DovetableSettings settings,
    const float *table, size_t entries, size_t *place);

/* The same for left and right, each voice at its pan. A voice whose pan is 1 or more leaves the
 * left mask as it is without the voice, to the bit, and one whose pan is -1 or less the right. */
uint32_t dovetable_build_stereo_masks_with_voices_precomputed(
    float *left, size_t left_bins, float *right, size_t right_bins, const float *manual_mask_db,
    size_t points, const struct DovetableVoice *voices, size_t count,
    struct DovetableSettings settings, const float *table, size_t entries, size_t *place);

/* The same with the table in the block of dovetable_prepared_spectrum_new, after its four windows.
 * Tests: also 4, a block of 4*size + size/2 + 1 entries. An entry's place is counted from the
 * table's start. */
uint32_t dovetable_build_stereo_masks_with_prepared_spectrum(
    float *left, size_t left_bins, float *right, size_t right_bins, const float *manual_mask_db,
    size_t points, const struct DovetableVoice *voices, size_t count,
    struct DovetableSettings settings, const float *block, size_t block_length, size_t *place);

/* ---- Windows and gain lists ---- */

/* The dual of an analysis window. Tests: 4, lengths in 1..16,384 and equal; 7, values of analysis
 * in -16..16; 8, overlap in 1..16, dividing the length. Writes: synthesis. */
uint32_t dovetable_build_dual_synthesis_window(const float *analysis, size_t analysis_length,
                                               float *synthesis, size_t synthesis_length,
                                               size_t overlap, size_t *place);

/* Smooths neighbouring gains in decibels. Tests: 4, lengths at most 8,193 and equal; 7, gains of
 * source in 0..64. Writes: output. */
uint32_t dovetable_soften_spectral_edges(const float *source, size_t source_length, float *output,
                                         size_t output_length, size_t *place);

/* Moves gains towards a target, with a time constant of 30 ms. Tests: 2, elapsed in 0..10; 4,
 * lengths at most 8,193 and equal; 7, gains of both in 0..64. Writes: current. */
uint32_t dovetable_smooth_mask_in_db(float *current, size_t current_length, const float *target,
                                     size_t target_length, float elapsed_seconds, size_t *place);

/* Fills a block of 4*size + size/2 + 1 entries, size being the window's length: window, its dual,
 * smooth window, its dual, frequency table. Tests: 1, size, rate; 4, the smooth window's length and
 * the block's; 7, values of both windows in -16..16; 8, overlap in 1..16, dividing the size.
 * Writes: block and both coherent gains. */
uint32_t dovetable_prepared_spectrum_new(float sample_rate, const float *window,
                                         size_t window_length, const float *smooth_analysis_window,
                                         size_t smooth_length, size_t overlap, float *block,
                                         size_t block_length, float *window_coherent_gain,
                                         float *smooth_window_coherent_gain, size_t *place);

/* ---- Scene records: settings and voices as bytes, to store them ----
 *
 * The fields of a record follow one another, the most significant bit of each first. Its head is
 * 31 bytes: 4 bits for the logarithm to base 2 of the size, 1 for the note layer (1 is on), 3 for
 * the shape, 5 for the partials, 8 for the count of voices, 3 that are zero; then the floats rate,
 * note depth, width, rolloff, motion depth, motion phase, motion size. Each voice is 29 bytes: 7
 * bits for the note, 1 for the form of the pitch; then the floats level, semitones or hertz,
 * pressure, timbre, volume, expression, pan. For hertz the note bits are zero. The drawn curve is
 * not in it. Every accepted scene comes back to the bit, and every accepted record is the one that
 * its scene is written as.
 */

/* Writes a scene as a record. Tests: 1, size, rate; 2, every other setting; 3, at most 128 voices;
 * 4, a record of 31 + 29*count bytes; 5, the voices. Writes: every byte of record. */
uint32_t dovetable_write_scene(uint8_t *record, size_t bytes, struct DovetableScene scene,
                               size_t *place);

/* Reads a record. Tests: 9, before all others, 31 + 29*count bytes by the count in the record, the
 * 3 bits zero, and the note bits zero in every voice by hertz; then, on the fields, 1, size, rate;
 * 2, every other setting; 3, at most 128 voices; 5, the voices. */
struct DovetableSceneRead dovetable_read_scene(const uint8_t *record, size_t bytes);

/* ---- A bank of voices: notes that come and go ----
 *
 * A bank holds up to 128 voices, each under an id of its own, which may be any uint16_t. It goes in
 * by value and is handed back, as it came where the call is refused: 'bank = banked.bank' is right
 * after every call. Voices stand in the order in which they were added. The order is not audible:
 * two banks of the same voices, under whatever ids and however often, give equal masks with the
 * same settings, table and curve.
 *
 * Whatever a bank holds, no call reads or writes outside it. Where its count is above 128, adding
 * is refused under 3, and so is reading unless 1 or 2 comes first; taking out and changing look at
 * the first 128 voices, keep no others when done, and count them anew. Where an id stands several
 * times, the first is meant.
 */

/* The empty bank: 0 in every field. */
struct DovetableBank dovetable_new_bank(void);

/* Adds a voice behind the others. Tests: 3, under 128 voices in the bank; 5, the voice; 10, an id
 * that is not in the bank. */
struct DovetableBanked dovetable_add_voice(struct DovetableBank bank, uint16_t id,
                                           struct DovetableVoice voice);

/* Takes a voice out; the others keep their order. Tests: 10, an id that is in the bank. */
struct DovetableBanked dovetable_remove_voice(struct DovetableBank bank, uint16_t id);

/* Puts another voice in the place of the one with this id. Tests: 5, the voice; 10, an id that is
 * in the bank. */
struct DovetableBanked dovetable_change_voice(struct DovetableBank bank, uint16_t id,
                                              struct DovetableVoice voice);

/* The masks of the bank's voices: dovetable_build_stereo_masks_with_voices_precomputed on them,
 * with its tests, 1 to 6, and its places. Writes: every entry of each mask. */
uint32_t dovetable_read_masks(float *left, size_t left_bins, float *right, size_t right_bins,
                              const float *manual_mask_db, size_t points,
                              struct DovetableBank bank, struct DovetableSettings settings,
                              const float *table, size_t entries, size_t *place);

/* ---- A mixer: sixteen strips that share one builder ----
 *
 * A strip, 0 to 15, files a request and then waits. A turn names the strip that has waited longest
 * and takes it off. A strip that asks again while it waits keeps its place and is named once; when
 * it has been named, it can ask again. Whatever the others file, a strip is named at the latest in
 * the sixteenth turn after its wait began. 'served' counts the turns that found someone waiting,
 * and stays at its highest value, 2^64 - 1.
 *
 * The mixer goes in by value and is handed back: 'mixer = filed.mixer' is right after every
 * request, and so are 'mixer = turned.mixer' and 'mixer = served.mixer' after every turn. A turn
 * that names a strip takes it off and counts also where the strip's scene is then refused.
 *
 * dovetable_serve takes a turn and builds the masks of the strip that it names. The sixteen scenes
 * go in by value, so it needs some 194 KB of stack. A caller who keeps the scenes elsewhere can
 * call dovetable_turn, and then dovetable_build_stereo_masks_with_voices_precomputed for the strip
 * that is named.
 *
 * Whatever a mixer holds, no call reads or writes outside it. The line is the first 'count' places,
 * at most 16. In a line of 16 without the strip, which no list of calls makes, a request is done
 * and the mixer comes back as it came. A turn names what is first in the line, whatever number that
 * is, and hands back the count of those that are left. Where dovetable_serve so names a strip above
 * 15, it is refused under 11.
 */

/* The mixer in which nobody waits and no turn is counted: 0 in every field. */
struct DovetableMixer dovetable_new_mixer(void);

/* Files a strip's request. Tests: 11, strip at most 15. */
struct DovetableFiled dovetable_request(struct DovetableMixer mixer, size_t strip);

/* Names the strip that has waited longest, and takes it off. */
struct DovetableTurned dovetable_turn(struct DovetableMixer mixer);

/* Takes a turn and builds the masks of the scene of the strip that is named:
 * dovetable_build_stereo_masks_with_voices_precomputed on it, with its tests, 1 to 6, and its
 * places. A scene of another size than the masks and the table have is refused under 4. The scenes
 * of the other strips are ignored. Where nobody is named, nothing is tested and nothing is written.
 * Tests: 11, before all others, a name of at most 15. Writes: every entry of each mask. */
struct DovetableServed dovetable_serve(float *left, size_t left_bins, float *right,
                                       size_t right_bins, const float *manual_mask_db,
                                       size_t points, struct DovetableStripScenes scenes,
                                       const float *table, size_t entries,
                                       struct DovetableMixer mixer);

/* ---- The functions below the calls: defined for every argument, never refused ---- */

/* Each entry is replaced by the value there. */
void dovetable_exp2_all(float *xs, size_t n);
void dovetable_log2_all(float *xs, size_t n);
void dovetable_sin_all(float *xs, size_t n);
void dovetable_cos_all(float *xs, size_t n);
void dovetable_sqrt_all(float *xs, size_t n);
void dovetable_pow10_all(float *xs, size_t n);
void dovetable_exp_all(float *xs, size_t n);
void dovetable_log10_all(float *xs, size_t n);
void dovetable_rem_euclid_all(float *xs, size_t n); /* modulo 1 */
void dovetable_powi2_all(float *xs, size_t n);
void dovetable_powi5_all(float *xs, size_t n);
void dovetable_abs_all(float *xs, size_t n);

/* If one of two arguments is NaN, max and min give the other. */
float dovetable_max(float a, float b);
float dovetable_min(float a, float b);
float dovetable_clamp(float x, float lo, float hi);

/* Rounded down or up to a whole number: 0 below 0 and for NaN, at most the greatest size_t. */
size_t dovetable_floor_to_count(float x);
size_t dovetable_ceil_to_count(float x);

/* From a number to its bit pattern, and back. */
uint32_t dovetable_bits_of(float x);
float dovetable_of_bits(uint32_t n);

#ifdef __cplusplus
}
#endif

#endif
