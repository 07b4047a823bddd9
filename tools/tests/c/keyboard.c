/*
 * The header's nine calls, called: what each answers, what it leaves in the record, and that the record's fields lie where
 * the archive has them. Prints each expectation that fails, then a closing line. Assumes nothing of the C library but
 * printf and memcmp.
 */
#include "keyboard.h"

int printf(const char *format, ...);
int memcmp(const void *a, const void *b, size_t length);

static int failures;

static void expect_at(int line, const char *what, bool holds)
{
    if (!holds) {
        printf("keyboard.c:%d: not so: %s\n", line, what);
        failures++;
    }
}
#define expect(what) expect_at(__LINE__, #what, (what))

static bool same(const Keyboard *a, const Keyboard *b)
{
    return memcmp(a, b, sizeof *a) == 0;
}

static void sizes(void)
{
    expect(sizeof(KbHidReport) == 8);
    expect(sizeof(KeyboardGot) == 9 && offsetof(KeyboardGot, report) == 1);
    expect(sizeof(Keyboard) == 16 && offsetof(Keyboard, num) == 8 && offsetof(Keyboard, caps) == 9);
    expect(offsetof(Keyboard, scroll) == 10 && offsetof(Keyboard, compose) == 11 && offsetof(Keyboard, kana) == 12);
    expect(offsetof(Keyboard, idle) == 13 && offsetof(Keyboard, count) == 14);
}

static void made(void)
{
    static const Keyboard zero;
    Keyboard kb = keyboard_new();
    expect(same(&kb, &zero));
}

static void reports(void)
{
    static const KbHidReport space = {{2, 0, 0x2C, 0, 0, 0, 0, 0}};
    static const KbHidReport zero;
    Keyboard kb = keyboard_new(), before;
    expect(!keyboard_set_keyboard_report(&kb, zero));
    expect(keyboard_set_keyboard_report(&kb, space));
    expect(!keyboard_set_keyboard_report(&kb, space));
    expect(memcmp(kb.report.bytes, space.bytes, 8) == 0);
    before = kb;
    KeyboardGot got = keyboard_get_report(&kb, KEYBOARD_INPUT, 7);
    expect(got.number == 0 && memcmp(got.report.bytes, space.bytes, 8) == 0);
    got = keyboard_get_report(&kb, KEYBOARD_FEATURE, 0);
    expect(got.number == 14 && memcmp(got.report.bytes, zero.bytes, 8) == 0);
    expect(same(&kb, &before));
}

static void lights(void)
{
    Keyboard kb = keyboard_new(), before;
    const uint8_t byte[2] = {0xE9, 0};
    expect(keyboard_set_report(&kb, KEYBOARD_OUTPUT, 0, byte, 1) == 0);
    expect(kb.num && !kb.caps && !kb.scroll && kb.compose && !kb.kana);
    const uint8_t others[1] = {0x16};
    expect(keyboard_set_report(&kb, KEYBOARD_OUTPUT, 0, others, 1) == 0);
    expect(!kb.num && kb.caps && kb.scroll && !kb.compose && kb.kana);
    before = kb;
    expect(keyboard_set_report(&kb, KEYBOARD_OUTPUT, 0, byte, 0) == 14);
    expect(keyboard_set_report(&kb, KEYBOARD_OUTPUT, 0, byte, 2) == 14);
    expect(keyboard_set_report(&kb, KEYBOARD_OUTPUT, 1, byte, 1) == 14);
    expect(keyboard_set_report(&kb, KEYBOARD_INPUT, 0, byte, 1) == 14);
    expect(same(&kb, &before));
}

static void idle(void)
{
    Keyboard kb = keyboard_new();
    expect(!keyboard_clock(&kb) && kb.count == 1);
    expect(keyboard_set_idle(&kb, 2) == 0 && kb.idle == 2 && kb.count == 0);
    int due = 0;
    for (int ms = 1; ms <= 24; ms++)
        if (keyboard_clock(&kb))
            due += ms;
    expect(due == 8 + 16 + 24);
    kb.count = 65535;
    expect(keyboard_set_idle(&kb, 0) == 0 && kb.count == 0);
    kb.count = 1020;
    expect(!keyboard_clock(&kb) && kb.count == 1020);
}

/* docs/LINK.md's loop: the clock before the report, so that a change begins a period of its own. */
static void loop(void)
{
    static const KbHidReport space = {{1, 0, 0x2C, 0, 0, 0, 0, 0}};
    static const KbHidReport zero;
    Keyboard kb = keyboard_new();
    int sent = 0;
    keyboard_set_idle(&kb, 1);
    for (int ms = 1; ms <= 12; ms++) {
        bool due = keyboard_clock(&kb);
        bool changed = keyboard_set_keyboard_report(&kb, ms < 3 ? zero : space);
        if (due || changed)
            sent += 1 << ms;
    }
    expect(sent == (1 << 3) + (1 << 7) + (1 << 11));
}

static void described(void)
{
    uint8_t out[KEYBOARD_DESCRIPTOR_LENGTH + 2];
    for (size_t i = 0; i < sizeof out; i++)
        out[i] = 0x5A;
    expect(keyboard_report_descriptor(out, KEYBOARD_DESCRIPTOR_LENGTH - 1) == 12 && out[0] == 0x5A);
    expect(keyboard_report_descriptor(out, 0) == 12 && out[0] == 0x5A);
    expect(keyboard_report_descriptor(out, sizeof out) == 0);
    expect(out[0] == 0x05 && out[1] == 0x01 && out[2] == 0x09 && out[3] == 0x06);
    expect(out[KEYBOARD_DESCRIPTOR_LENGTH - 1] == 0xC0);
    expect(out[KEYBOARD_DESCRIPTOR_LENGTH] == 0x5A && out[KEYBOARD_DESCRIPTOR_LENGTH + 1] == 0x5A);
    expect(keyboard_subclass() == 1 && keyboard_protocol() == 1);
}

int main(void)
{
    sizes();
    made();
    reports();
    lights();
    idle();
    loop();
    described();
    if (failures == 0)
        printf("keyboard.c: the nine calls answer as include/keyboard.h says\n");
    return failures != 0;
}
