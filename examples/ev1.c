/* A desk makes an EV1 ready and a board takes a ride from it: the UID's usage is chosen once, the choice outlives the field, and a NAK
 * tells with its value whether a ride was left half done. Each line that it prints is what it sent and what came back. Exit status 0:
 * every answer was the expected one. */
#include "tirlwheel.h"

#include <stdio.h>
#include <string.h>

/* Beside the image stands the card's record, which is kept as long as the image is; the session belongs to the reader. */
static uint8_t image[4096];
static uint8_t card[TIRLWHEEL_CARD] = {TIRLWHEEL_EV1, 0, 0, 0};
static uint8_t session[TIRLWHEEL_SESSION];
static uint8_t reply[TIRLWHEEL_REPLY];
static int surprises;

static const uint8_t DECREMENT_4[2] = {0xC0, 4};
static const uint8_t OPERAND_1[4] = {1, 0, 0, 0};
static const uint8_t TRANSFER_4[2] = {0xB0, 4};
static const uint8_t READ_4[2] = {0x30, 4};
static const uint8_t READ_8[2] = {0x30, 8};

/* Forty sectors with transport trailers, and the value 100 in block 4. */
static void make_card(void)
{
    static const uint8_t trailer[16] = {0xFF, 0xFF, 0xFF, 0xFF, 0xFF, 0xFF, 0xFF, 0x07, 0x80, 0x69,
                                        0xFF, 0xFF, 0xFF, 0xFF, 0xFF, 0xFF};
    static const uint8_t hundred[16] = {100, 0, 0, 0, 155, 255, 255, 255, 100, 0, 0, 0, 4, 251, 4, 251};
    for (int sector = 0; sector < 40; sector++)
        memcpy(image + 16 * (sector < 32 ? 4 * sector + 3 : 128 + 16 * (sector - 32) + 15), trailer, 16);
    memcpy(image + 16 * 4, hundred, 16);
}

/* Prints an answer, a NAK with its value if the card is an EV1, and the card's record; counts it where it is not the expected one. */
static void heard(const char *name, uint32_t result, unsigned expected)
{
    unsigned number = TIRLWHEEL_NUMBER(result), sign = TIRLWHEEL_SIGN(result);
    printf("%s %u ", name, number);
    if (sign == TIRLWHEEL_DATA)
        for (int i = 0; i < TIRLWHEEL_REPLY; i++)
            printf("%02X", reply[i]);
    else
        putchar("AN?-"[sign]);
    if (sign == TIRLWHEEL_NAK && card[0] == TIRLWHEEL_EV1)
        printf("%X", (unsigned)TIRLWHEEL_VALUE(result));
    printf(" card %02X %02X %02X %02X\n", card[0], card[1], card[2], card[3]);
    surprises += number != expected;
}

static void send(const char *name, const uint8_t *frame, size_t length, unsigned expected)
{
    heard(name, tirlwheel_card_frame(image, sizeof image, card, session, frame, length, reply), expected);
}

static void authenticate(uint8_t block, unsigned expected)
{
    uint8_t frame[8] = {0x60, block, 0xFF, 0xFF, 0xFF, 0xFF, 0xFF, 0xFF};
    send("authenticate", frame, sizeof frame, expected);
}

static void personalize(uint8_t type, unsigned expected)
{
    uint8_t frame[2] = {0x40, type};
    send("personalize", frame, sizeof frame, expected);
}

static void make_ready(void)
{
    puts("the desk chooses a random ID, once it is authenticated for sector 0");
    personalize(0x20, 3);
    authenticate(0, 0);
    personalize(0x21, 17);
    authenticate(0, 0);
    personalize(0x20, 0);

    puts("the choice is made for good");
    personalize(0x60, 18);
    heard("reset", tirlwheel_card_reset(card, session, reply), 0);
    authenticate(0, 0);
    personalize(0x20, 18);
}

static void take_rides(void)
{
    puts("a ride, and another that goes wrong before its Transfer: the register was full");
    authenticate(4, 0);
    send("decrement", DECREMENT_4, sizeof DECREMENT_4, 0);
    send("operand", OPERAND_1, sizeof OPERAND_1, 0);
    send("transfer", TRANSFER_4, sizeof TRANSFER_4, 0);
    authenticate(4, 0);
    send("decrement", DECREMENT_4, sizeof DECREMENT_4, 0);
    send("operand", OPERAND_1, sizeof OPERAND_1, 0);
    send("read", READ_8, sizeof READ_8, 3);

    puts("the refusal emptied it");
    send("transfer", TRANSFER_4, sizeof TRANSFER_4, 3);
    authenticate(4, 0);
    send("transfer", TRANSFER_4, sizeof TRANSFER_4, 9);
    authenticate(4, 0);
    send("read", READ_4, sizeof READ_4, 0);
}

int main(void)
{
    make_card();
    make_ready();
    take_rides();

    puts("the same image as an old card: 40h is no command, and a NAK has no value");
    memset(card, 0, sizeof card);
    authenticate(0, 0);
    personalize(0x20, 1);
    send("read", READ_4, sizeof READ_4, 3);

    puts("four bytes that are no card's");
    card[0] = 2;
    authenticate(0, 11);
    heard("reset", tirlwheel_card_reset(card, session, reply), 0);
    return surprises != 0;
}
