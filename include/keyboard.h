/*
 * The proved keyboard, for C to link: what the crate keyboard_c of this repository exports of keyboard (docs/LINK.md).
 *
 * The record is the caller's: keyboard_new makes it, a call is lent it and updates it. A call that is refused answers the
 * refusal's number (docs/REFUSALS.md) and leaves the record and the buffer as they were; 0 is no refusal.
 *
 * Assumes: a C compiler for x86-64 Linux, whose bool is a byte that is 0 or 1. Pointers are not null and point at what they
 * say, so many bytes where a length follows; no two calls have one record at the same time.
 */
#ifndef KEYBOARD_H
#define KEYBOARD_H

#include <stdbool.h>
#include <stddef.h>
#include <stdint.h>

#ifdef __cplusplus
extern "C" {
#endif

/* Report types of a request, as HID 1.11 numbers them, and the descriptor's length. */
#define KEYBOARD_INPUT 1
#define KEYBOARD_OUTPUT 2
#define KEYBOARD_FEATURE 3
#define KEYBOARD_DESCRIPTOR_LENGTH 71

/* The boot keyboard's input report: modifiers, a constant byte, six codes. */
typedef struct KbHidReport {
    uint8_t bytes[8];
} KbHidReport;

/* Every value of it is legal. */
typedef struct Keyboard {
    KbHidReport report;
    bool num;
    bool caps;
    bool scroll;
    bool compose;
    bool kana;
    uint8_t idle;   /* the idle rate, in units of 4 ms; 0 repeats nothing */
    uint16_t count; /* the clock calls of the running period */
} Keyboard;

/* A refusal's number or 0, and the report; that of a refused call is zero. */
typedef struct KeyboardGot {
    uint8_t number;
    KbHidReport report;
} KeyboardGot;

/* A fresh keyboard: no key down, no light, idle rate 0. */
Keyboard keyboard_new(void);

/* The report to send from now on. True if it differs from the last: send it. */
bool keyboard_set_keyboard_report(Keyboard *kb, KbHidReport report);

/* Get_Report. Input has the last report, under any id; any other type is refused, 14. */
KeyboardGot keyboard_get_report(Keyboard *kb, uint8_t type, uint8_t id);

/* Set_Report. Output, id 0 and one byte set the lights; anything else is refused, 14. */
uint8_t keyboard_set_report(Keyboard *kb, uint8_t type, uint8_t id, const uint8_t *bytes, size_t length);

/* Set_Idle: the rate, in units of 4 ms. Never refused. */
uint8_t keyboard_set_idle(Keyboard *kb, uint8_t rate);

/* One millisecond. True if the report is due again: send it. */
bool keyboard_clock(Keyboard *kb);

/* The report descriptor, written to the buffer's first 71 bytes; a shorter buffer is refused, 12. */
uint8_t keyboard_report_descriptor(uint8_t *out, size_t length);

/* What the interface says of itself: the boot interface's subclass, a keyboard's protocol. */
uint8_t keyboard_subclass(void);
uint8_t keyboard_protocol(void);

#ifdef __cplusplus
}
#endif

#endif
