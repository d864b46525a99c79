/* A board takes one ride from a purse: authenticate, decrement, operand, transfer, read; and what it does when a key is refused.
 * Each line that it prints is what it sent and what came back. Exit status 0: every answer was the expected one. */
#include "tirlwheel.h"

#include <stdio.h>
#include <string.h>

/* The board keeps the card's image and one session for its reader, and lends both to each call. */
static uint8_t image[1024];
static uint8_t session[TIRLWHEEL_SESSION];
static uint8_t reply[TIRLWHEEL_REPLY];
static int surprises;

static const uint8_t TRANSPORT_KEY[6] = {0xFF, 0xFF, 0xFF, 0xFF, 0xFF, 0xFF};
static const uint8_t OLD_KEY[6] = {0xA0, 0xA1, 0xA2, 0xA3, 0xA4, 0xA5};
static const uint8_t DECREMENT_4[2] = {0xC0, 4};
static const uint8_t OPERAND_1[4] = {1, 0, 0, 0};
static const uint8_t TRANSFER_4[2] = {0xB0, 4};
static const uint8_t READ_4[2] = {0x30, 4};

/* Sixteen sectors with transport trailers, and the value 100 in block 4. */
static void make_card(void)
{
    static const uint8_t trailer[16] = {0xFF, 0xFF, 0xFF, 0xFF, 0xFF, 0xFF, 0xFF, 0x07, 0x80, 0x69,
                                        0xFF, 0xFF, 0xFF, 0xFF, 0xFF, 0xFF};
    static const uint8_t hundred[16] = {100, 0, 0, 0, 155, 255, 255, 255, 100, 0, 0, 0, 4, 251, 4, 251};
    for (int sector = 0; sector < 16; sector++)
        memcpy(image + 16 * (4 * sector + 3), trailer, 16);
    memcpy(image + 16 * 4, hundred, 16);
}

/* Prints an answer, counts it where it is not the expected one, and gives its number. */
static unsigned heard(const char *name, uint32_t result, unsigned expected)
{
    unsigned number = TIRLWHEEL_NUMBER(result);
    printf("%s %u ", name, number);
    if (TIRLWHEEL_SIGN(result) == TIRLWHEEL_DATA)
        for (int i = 0; i < TIRLWHEEL_REPLY; i++)
            printf("%02X", reply[i]);
    else
        putchar("AN?-"[TIRLWHEEL_SIGN(result)]);
    putchar('\n');
    surprises += number != expected;
    return number;
}

static unsigned send(const char *name, const uint8_t *frame, size_t length, unsigned expected)
{
    return heard(name, tirlwheel_frame(image, sizeof image, session, frame, length, reply), expected);
}

static unsigned authenticate(const uint8_t key[6], unsigned expected)
{
    uint8_t frame[8] = {0x60, 4};
    memcpy(frame + 2, key, 6);
    return send("authenticate", frame, sizeof frame, expected);
}

/* The value operation from its first frame on, up to the number that refuses it. */
static unsigned take_one(void)
{
    unsigned number = send("decrement", DECREMENT_4, sizeof DECREMENT_4, 0);
    if (number == 0)
        number = send("operand", OPERAND_1, sizeof OPERAND_1, 0);
    if (number == 0)
        number = send("transfer", TRANSFER_4, sizeof TRANSFER_4, 0);
    return number;
}

/* A refused Authenticate has ended whatever went before it. So the board tries the next key, and only under one that was accepted
 * does it begin the value operation, from the first frame. */
static unsigned ride(void)
{
    unsigned number = authenticate(OLD_KEY, 4);
    if (number == 4)
        number = authenticate(TRANSPORT_KEY, 0);
    return number == 0 ? take_one() : number;
}

int main(void)
{
    make_card();
    printf("version %u\n", (unsigned)tirlwheel_version());

    puts("what a refused authentication ends");
    authenticate(TRANSPORT_KEY, 0);
    send("decrement", DECREMENT_4, sizeof DECREMENT_4, 0);
    send("operand", OPERAND_1, sizeof OPERAND_1, 0);
    authenticate(OLD_KEY, 4);
    send("transfer", TRANSFER_4, sizeof TRANSFER_4, 3);

    puts("the ride");
    ride();
    send("read", READ_4, sizeof READ_4, 0);

    puts("the field goes away and comes back");
    heard("reset", tirlwheel_field_reset(session, reply), 0);
    send("read", READ_4, sizeof READ_4, 3);

    puts("twelve bytes that are no session's");
    session[0] = 7;
    send("read", READ_4, sizeof READ_4, 12);
    return surprises != 0;
}
