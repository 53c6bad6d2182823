#include "tell.h"

#include <inttypes.h>
#include <stdio.h>

#define PAYLOAD_ROOM 4096

void tell_payload(const uint8_t *element, size_t value, size_t length)
{
    uint8_t payload[PAYLOAD_ROOM];
    uint64_t needed;
    uint32_t status = brine_payload(element + value, length, payload, sizeof payload, &needed);
    printf(" payload %" PRIu64 "%s", needed, status == BRINE_NO_ROOM ? " refused 3" : "");
}

/* Tells a value that is there by what it is. */
static void tell_value(const char *name, uint64_t kind, uint64_t bits)
{
    static const char *const texts[] = {
        [BRINE_KIND_INFINITY] = "infinity", [BRINE_KIND_OFF] = "off", [BRINE_KIND_CLOSE] = "close", [BRINE_KIND_OTHERS] = "others",
        [BRINE_KIND_AUTO] = "auto", [BRINE_KIND_MANUAL] = "manual", [BRINE_KIND_RESERVED] = "reserved",
    };
    switch (kind) {
    case BRINE_KIND_NOTHING: break;
    case BRINE_KIND_F32: printf(" %s %.3f", name, brine_float(bits)); break;
    case BRINE_KIND_F64: printf(" %s %.3f", name, brine_double(bits)); break;
    case BRINE_KIND_SIGNED: printf(" %s %" PRId64, name, brine_signed(bits)); break;
    case BRINE_KIND_LINEAR: printf(" linear-%s %" PRIu64, name, bits); break;
    case BRINE_KIND_CODE:
    case BRINE_KIND_WHOLE:
    case BRINE_KIND_FLAG: printf(" %s %" PRIu64, name, bits); break;
    default: printf(" %s %s", name, texts[kind]);
    }
}

/* Tells the values that have a name, in the order of their places. */
static void tell_named(const char *const names[BRINE_VALUES], const uint64_t kind[BRINE_VALUES], const uint64_t bits[BRINE_VALUES])
{
    for (int i = 0; i < BRINE_VALUES; i++)
        if (names[i])
            tell_value(names[i], kind[i], bits[i]);
}

void tell_values(const uint8_t *element, size_t value, size_t length)
{
    static const char *const names[BRINE_VALUES] = {
        [BRINE_FRAME_FOCAL_LENGTH] = "focal", [BRINE_FRAME_FOCUS_DISTANCE] = "focus", [BRINE_FRAME_T_STOP] = "stop",
        [BRINE_FRAME_EXPOSURE_TIME] = "exposure", [BRINE_FRAME_SHUTTER_ANGLE] = "shutter", [BRINE_FRAME_TILT] = "tilt",
        [BRINE_FRAME_ROLL] = "roll", [BRINE_FRAME_EXPOSURE_INDEX] = "index", [BRINE_FRAME_WHITE_BALANCE] = "balance",
    };
    uint64_t frame[4] = {0, value, length, 0}, found, kind[BRINE_VALUES], bits[BRINE_VALUES];
    brine_arri_values(element, value + length, frame, &found, kind, bits);
    if (found == BRINE_NOTHING)
        printf(" no values");
    tell_named(names, kind, bits);
}

/* Tells a sequence info. */
static void tell_sequence(const uint8_t *set, size_t length)
{
    uint64_t out[BRINE_SEQUENCE_PLACES];
    int64_t positions[BRINE_POSITION_PLACES];
    brine_sequence(set, length, out, positions);
    printf(" sequence");
    if (out[BRINE_SEQUENCE_TIMECODE_FOUND] == BRINE_FOUND)
        printf(" timecode %" PRId64, positions[BRINE_POSITION_TIMECODE]);
    if (out[BRINE_SEQUENCE_POSITION_FOUND] == BRINE_FOUND)
        printf(" position %" PRId64, positions[BRINE_POSITION_START]);
}

/* Tells a package metadata set. */
static void tell_package(const uint8_t *set, size_t length)
{
    static const char *const names[BRINE_VALUES] = {
        [BRINE_CAMERA_FOCAL_LENGTH] = "focal", [BRINE_CAMERA_F_NUMBER] = "f", [BRINE_CAMERA_T_NUMBER] = "t",
        [BRINE_CAMERA_SHUTTER_VALUE] = "shutter", [BRINE_CAMERA_TEMPERATURE] = "balance", [BRINE_CAMERA_ND_FILTER] = "nd",
        [BRINE_CAMERA_ISO_SPEED] = "iso", [BRINE_CAMERA_TILT] = "tilt", [BRINE_CAMERA_ROLL] = "roll",
    };
    uint64_t out[BRINE_PACKAGE_PLACES] = {0}, count = 0, kind[BRINE_VALUES], bits[BRINE_VALUES];
    for (;; count++) {
        brine_package(set, length, out[BRINE_PACKAGE_FROM], out[BRINE_PACKAGE_END], out);
        if (out[BRINE_PACKAGE_FOUND] == BRINE_NOTHING)
            break;
        if (count == 0)
            brine_camera(set + out[BRINE_PACKAGE_VALUE], out[BRINE_PACKAGE_LENGTH], kind, bits);
    }
    printf(" package %" PRIu64, count);
    if (count > 0)
        tell_named(names, kind, bits);
}

void tell_given(const uint8_t *element, size_t value, size_t length)
{
    static const uint8_t sequence[16] = {0x06, 0x0e, 0x2b, 0x34, 0x01, 0x01, 0x01, 0x0d, 0x0e, 0x15, 0, 0, 0, 0x01, 0, 0};
    if (brine_same_label(element, 16, sequence, 16))
        tell_sequence(element + value, length);
    else
        tell_package(element + value, length);
}
