/*
 * A chord, its fifth by hertz, stored as a record, read again and built as stereo masks; a bank of
 * voices that come and go; a mixer whose strips have their turns; and refusals. From the
 * repository's root, once the library is there:
 *
 *     cc -std=c11 -I include bindings/c/example.c \
 *         target/staticlib/libspectral_dsp_c.a -o target/example
 *
 * Prints a line for each of a few bins, of the chord, of the bank and of each strip that has its
 * turn: the bin, its left and its right gain, with the nine digits that identify a float. Exits 1
 * if a call does not answer as it should.
 */
#include "dovetable.h"

#include <stdio.h>
#include <string.h>

enum { SIZE = 8192, BINS = SIZE / 2 + 1, VOICES = 3 };

static float curve[DOVETABLE_CURVE_POINTS];
static float table[BINS], left[BINS], right[BINS];
static struct DovetableStripScenes strips;
static uint8_t record[DOVETABLE_RECORD_HEAD_BYTES + VOICES * DOVETABLE_RECORD_VOICE_BYTES];

static struct DovetableVoice by_note(uint8_t note, float pan) {
    struct DovetableVoice made = {.pitch_form = DOVETABLE_PITCH_NOTE, .note = note, .level = 1.0f,
                                  .pressure = 1.0f, .timbre = 0.5f, .volume_gain = 1.0f,
                                  .expression_gain = 1.0f, .pan = pan};
    return made;
}

static struct DovetableVoice by_hertz(float hertz, float pan) {
    struct DovetableVoice made = by_note(0, pan);
    made.pitch_form = DOVETABLE_PITCH_HERTZ;
    made.semitones_or_hertz = hertz;
    return made;
}

/* Writes a chord as a record and reads it; the answer is that of the call that refuses, if any. */
static struct DovetableSceneRead stored(const struct DovetableVoice *chord,
                                        struct DovetableSettings settings) {
    struct DovetableSceneRead answer = {.scene = {.settings = settings, .count = VOICES}};
    memcpy(answer.scene.voices, chord, VOICES * sizeof chord[0]);
    answer.number = dovetable_write_scene(record, sizeof record, answer.scene, &answer.place);
    return answer.number ? answer : dovetable_read_scene(record, sizeof record);
}

/* Fills left and right with the masks of a chord; returns 0 or the number of a refusal. */
static uint32_t masks_of(const struct DovetableVoice *chord, struct DovetableSettings settings,
                         size_t *place) {
    uint32_t refused = dovetable_prepare(table, BINS, settings.sample_rate, SIZE, place);
    if (refused) {
        return refused;
    }
    return dovetable_build_stereo_masks_with_voices_precomputed(
        left, BINS, right, BINS, curve, DOVETABLE_CURVE_POINTS, chord, VOICES, settings, table,
        BINS, place);
}

/* A bank after two voices came, the first was changed to the third, and the second went; the number
 * is that of the call that refuses, if any. */
static struct DovetableBanked played(const struct DovetableVoice *chord) {
    struct DovetableBanked banked = dovetable_add_voice(dovetable_new_bank(), 1, chord[0]);
    if (!banked.number) {
        banked = dovetable_add_voice(banked.bank, 2, chord[1]);
    }
    if (!banked.number) {
        banked = dovetable_change_voice(banked.bank, 1, chord[2]);
    }
    return banked.number ? banked : dovetable_remove_voice(banked.bank, 2);
}

/* Prints the gains of the bins that are closest to the three voices, of one between them, and of
 * the last. */
static void print_gains(void) {
    static const size_t shown[] = {45, 50, 56, 67, BINS - 1};
    for (size_t i = 0; i < sizeof shown / sizeof shown[0]; i++) {
        size_t bin = shown[i];
        printf("%4zu  %.9g  %.9g\n", bin, left[bin], right[bin]);
    }
}

/* A scene of one voice. */
static struct DovetableScene scene_of(struct DovetableVoice voice,
                                      struct DovetableSettings settings) {
    struct DovetableScene made = {.settings = settings, .count = 1, .voices = {voice}};
    return made;
}

/* Prints what came of a strip's request or turn. */
static void print_strip(size_t strip, uint32_t number, size_t place) {
    printf("strip %zu: %u at %zu\n", strip, (unsigned)number, place);
}

/* Three strips ask, one of them twice, and 16, which is no strip; then they have their turns until
 * nobody waits. The scene of strip 4 is refused. Returns the turns that found someone waiting. */
static uint64_t play_mixer(const struct DovetableVoice *chord, struct DovetableSettings settings) {
    static const size_t asking[] = {7, 4, 16, 7, 12};
    struct DovetableMixer mixer = dovetable_new_mixer();
    strips.scenes[7] = scene_of(chord[0], settings);
    strips.scenes[4] = scene_of(by_hertz(20001.0f, 0.0f), settings);
    strips.scenes[12] = scene_of(chord[2], settings);
    for (size_t i = 0; i < sizeof asking / sizeof asking[0]; i++) {
        struct DovetableFiled filed = dovetable_request(mixer, asking[i]);
        print_strip(asking[i], filed.number, filed.place);
        mixer = filed.mixer;
    }
    for (;;) {
        struct DovetableServed served =
            dovetable_serve(left, BINS, right, BINS, curve, DOVETABLE_CURVE_POINTS, strips, table,
                            BINS, mixer);
        mixer = served.mixer;
        if (!served.named) {
            return mixer.served;
        }
        print_strip(served.strip, served.number, served.place);
        if (served.number == DOVETABLE_DONE) {
            print_gains();
        }
    }
}

int main(void) {
    struct DovetableSettings settings = {
        .sample_rate = 48000.0f, .fft_size = SIZE, .note_depth_db = 48.0f,
        .note_layer_enabled = true, .width_cents = 50.0f, .partials = 8,
        .harmonic_rolloff_db_per_octave = 6.0f, .motion_shape = DOVETABLE_RIPPLE,
        .motion_depth_db = 12.0f, .motion_phase = 0.25f, .motion_size_octaves = 2.0f};
    /* The fifth is pure: one and a half times the frequency of note 60. */
    struct DovetableVoice chord[VOICES] = {by_note(60, -0.5f), by_note(64, 0.0f),
                                           by_hertz(392.44f, 0.5f)};
    size_t place = 0;

    /* A curve that falls by 24 dB from the first point to the last. */
    for (size_t point = 0; point < DOVETABLE_CURVE_POINTS; point++) {
        curve[point] = -(float)point * (24.0f / 8192.0f);
    }
    struct DovetableSceneRead read = stored(chord, settings);
    if (read.number != DOVETABLE_DONE || read.scene.count != VOICES ||
        masks_of(read.scene.voices, read.scene.settings, &place) != DOVETABLE_DONE) {
        return 1;
    }
    print_gains();

    struct DovetableBanked banked = played(chord);
    if (banked.number != DOVETABLE_DONE ||
        dovetable_read_masks(left, BINS, right, BINS, curve, DOVETABLE_CURVE_POINTS, banked.bank,
                             settings, table, BINS, &place) != DOVETABLE_DONE) {
        return 1;
    }
    print_gains();

    if (play_mixer(chord, settings) != 3) {
        return 1;
    }
    banked = dovetable_remove_voice(banked.bank, 2);
    printf("refused: %u at %zu, %zu left\n", (unsigned)banked.number, banked.place,
           banked.bank.count);
    chord[2].semitones_or_hertz = 20001.0f;
    uint32_t number = masks_of(chord, settings, &place);
    printf("refused: %u at %zu\n", (unsigned)number, place);
    return number == DOVETABLE_REFUSED_VOICE && banked.number == DOVETABLE_REFUSED_ID ? 0 : 1;
}
