/* A board whose reader chip leaves the checksums to it takes one ride: each frame goes out with its CRC_A, and the checksum behind a Read's
 * reply is looked at before the block is believed. Then a frame that was damaged on its way. Exit status 0: every answer was the expected one. */
#include "tirlwheel.h"

#include <stdio.h>
#include <string.h>

#define LONGEST 18 /* bytes of the longest frame, with its checksum */

static uint8_t image[1024];
static uint8_t session[TIRLWHEEL_SESSION];
static uint8_t reply[TIRLWHEEL_SEALED_REPLY];
static int surprises;

static const uint8_t AUTHENTICATE_4[8] = {0x60, 4, 0xFF, 0xFF, 0xFF, 0xFF, 0xFF, 0xFF};
static const uint8_t DECREMENT_4[2] = {0xC0, 4};
static const uint8_t OPERAND_1[4] = {1, 0, 0, 0};
static const uint8_t TRANSFER_4[2] = {0xB0, 4};
static const uint8_t READ_4[2] = {0x30, 4};
static const uint8_t HALT[2] = {0x50, 0};

/* One sector with a transport trailer, and the value 100 in block 4. */
static void make_card(void)
{
    static const uint8_t trailer[16] = {0xFF, 0xFF, 0xFF, 0xFF, 0xFF, 0xFF, 0xFF, 0x07, 0x80, 0x69,
                                        0xFF, 0xFF, 0xFF, 0xFF, 0xFF, 0xFF};
    static const uint8_t hundred[16] = {100, 0, 0, 0, 155, 255, 255, 255, 100, 0, 0, 0, 4, 251, 4, 251};
    memcpy(image + 16 * 7, trailer, 16);
    memcpy(image + 16 * 4, hundred, 16);
}

/* CRC_A: from 6363h on, each bit of the bytes, lowest first, through the polynomial 8408h. */
static uint16_t crc_a(const uint8_t *bytes, size_t length)
{
    uint16_t crc = 0x6363;
    for (size_t i = 0; i < length; i++) {
        crc = (uint16_t)(crc ^ bytes[i]);
        for (int bit = 0; bit < 8; bit++)
            crc = (uint16_t)(crc & 1 ? crc >> 1 ^ 0x8408 : crc >> 1);
    }
    return crc;
}

/* Do the two bytes behind the first `length` hold their checksum, low byte first? */
static int is_sealed(const uint8_t *bytes, size_t length)
{
    uint16_t crc = crc_a(bytes, length);
    return bytes[length] == (crc & 0xFF) && bytes[length + 1] == crc >> 8;
}

/* Prints an answer, with a Read's checksum apart and judged, and counts it where it is not the expected one. */
static void heard(const char *name, uint32_t result, unsigned expected)
{
    printf("%s %u ", name, (unsigned)TIRLWHEEL_NUMBER(result));
    if (TIRLWHEEL_SIGN(result) == TIRLWHEEL_DATA) {
        for (int i = 0; i < TIRLWHEEL_SEALED_REPLY; i++)
            printf(i == TIRLWHEEL_REPLY ? " %02X" : "%02X", reply[i]);
        puts(is_sealed(reply, TIRLWHEEL_REPLY) ? " right" : " wrong");
        surprises += !is_sealed(reply, TIRLWHEEL_REPLY);
    } else {
        printf("%c\n", "AN?-"[TIRLWHEEL_SIGN(result)]);
    }
    surprises += TIRLWHEEL_NUMBER(result) != expected;
}

/* Sends a frame with its checksum, in which the bits of `damage` are turned. */
static void send(const char *name, const uint8_t *frame, size_t length, uint16_t damage, unsigned expected)
{
    uint8_t sealed[LONGEST];
    uint16_t crc = (uint16_t)(crc_a(frame, length) ^ damage);
    memcpy(sealed, frame, length);
    sealed[length] = (uint8_t)crc;
    sealed[length + 1] = (uint8_t)(crc >> 8);
    heard(name, tirlwheel_sealed_frame(image, sizeof image, session, sealed, length + 2, reply), expected);
}

int main(void)
{
    make_card();

    puts("the ride");
    send("authenticate", AUTHENTICATE_4, sizeof AUTHENTICATE_4, 0, 0);
    send("decrement", DECREMENT_4, sizeof DECREMENT_4, 0, 0);
    send("operand", OPERAND_1, sizeof OPERAND_1, 0, 0);
    send("transfer", TRANSFER_4, sizeof TRANSFER_4, 0, 0);
    send("read", READ_4, sizeof READ_4, 0, 0);

    puts("one bit of a checksum wrong");
    send("read", READ_4, sizeof READ_4, 0x0100, 14);
    send("read", READ_4, sizeof READ_4, 0, 3);
    send("authenticate", AUTHENTICATE_4, sizeof AUTHENTICATE_4, 0, 0);
    send("halt", HALT, sizeof HALT, 0x0001, 14);

    puts("no checksum at all");
    heard("read", tirlwheel_sealed_frame(image, sizeof image, session, READ_4, sizeof READ_4, reply), 14);
    return surprises != 0;
}
