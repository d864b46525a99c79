/* The desk keeps the figures of a card, how many value blocks it has and what they sum up to: the card is opened once, and they are right
 * after every event without counting again. Each line that it prints is what it sent, what came back, and the figures. Exit status 0: every
 * answer was the expected one, and the figures were those of a new count. */
#include "tirlwheel.h"

#include <inttypes.h>
#include <stdio.h>
#include <string.h>

/* Beside the image stand the card's record and its figures, which are kept as long as the image is; the session belongs to the reader. */
static uint8_t image[1024];
static uint8_t card[TIRLWHEEL_CARD];
static uint8_t figures[TIRLWHEEL_FIGURES];
static uint8_t session[TIRLWHEEL_SESSION];
static uint8_t reply[TIRLWHEEL_REPLY];
static int surprises;

static const uint8_t HUNDRED[16] = {100, 0, 0, 0, 155, 255, 255, 255, 100, 0, 0, 0, 4, 251, 4, 251};
static const uint8_t FIFTY[16] = {50, 0, 0, 0, 205, 255, 255, 255, 50, 0, 0, 0, 8, 247, 8, 247};
static const uint8_t NOTHING[16] = {0};

/* A signed number of eight bytes, low byte first. */
static int64_t number_at(const uint8_t *bytes)
{
    uint64_t number = 0;
    for (int i = 7; i >= 0; i--)
        number = number << 8 | bytes[i];
    return (int64_t)number;
}

/* Sixteen sectors with transport trailers, 100 in block 4 and 50 in block 8. */
static void make_card(void)
{
    static const uint8_t trailer[16] = {0xFF, 0xFF, 0xFF, 0xFF, 0xFF, 0xFF, 0xFF, 0x07, 0x80, 0x69,
                                        0xFF, 0xFF, 0xFF, 0xFF, 0xFF, 0xFF};
    for (int sector = 0; sector < 16; sector++)
        memcpy(image + 16 * (4 * sector + 3), trailer, 16);
    memcpy(image + 16 * 4, HUNDRED, 16);
    memcpy(image + 16 * 8, FIFTY, 16);
}

/* Prints a number, a sign if there is one, and the figures; counts it where the number is not the expected one. */
static void show(const char *name, unsigned number, const char *sign, unsigned expected)
{
    printf("%s %u%s count %" PRId64 " sum %" PRId64 "\n", name, number, sign, number_at(figures), number_at(figures + 8));
    surprises += number != expected;
}

static void heard(const char *name, uint32_t result, unsigned expected)
{
    static const char *const signs[4] = {" A", " N", " D", " -"};
    show(name, TIRLWHEEL_NUMBER(result), signs[TIRLWHEEL_SIGN(result)], expected);
}

static void open_card(void)
{
    show("open", tirlwheel_open(image, sizeof image, card, figures), "", 0);
}

static void send(const char *name, const uint8_t *frame, size_t length, unsigned expected)
{
    heard(name, tirlwheel_kept_frame(image, sizeof image, card, figures, session, frame, length, reply), expected);
}

static void command(const char *name, uint8_t code, uint8_t block, unsigned expected)
{
    uint8_t frame[2] = {code, block};
    send(name, frame, sizeof frame, expected);
}

static void authenticate(uint8_t block, unsigned expected)
{
    uint8_t frame[8] = {0x60, block, 0xFF, 0xFF, 0xFF, 0xFF, 0xFF, 0xFF};
    send("authenticate", frame, sizeof frame, expected);
}

static void operand(uint8_t amount)
{
    uint8_t frame[4] = {amount, 0, 0, 0};
    send("operand", frame, sizeof frame, 0);
}

/* The figures have to be those of a new count. */
static void count_again(void)
{
    uint8_t counted[TIRLWHEEL_FIGURES];
    uint32_t number = tirlwheel_open(image, sizeof image, card, counted);
    int is_same = number == 0 && memcmp(counted, figures, sizeof counted) == 0;
    puts(is_same ? "a new count gives the same" : "a new count gives others");
    surprises += !is_same;
}

static void take_ride(void)
{
    puts("a ride from block 4");
    authenticate(4, 0);
    command("decrement", 0xC0, 4, 0);
    operand(1);
    command("transfer", 0xB0, 4, 0);

    puts("a purse set up in block 5, and cleared again; a purse written over another");
    command("transfer", 0xB0, 5, 0);
    command("write", 0xA0, 5, 0);
    send("data", NOTHING, sizeof NOTHING, 0);
    command("write", 0xA0, 4, 0);
    send("data", FIFTY, sizeof FIFTY, 0);
    count_again();

    puts("a refusal leaves them");
    command("read", 0x30, 8, 3);
    count_again();
}

int main(void)
{
    make_card();
    open_card();
    take_ride();

    puts("figures that no card has: nothing on the air, and a field reset leaves them as well");
    figures[1] = 1;
    authenticate(4, 29);
    heard("reset", tirlwheel_kept_reset(card, figures, session, reply), 0);

    puts("opened anew");
    open_card();
    authenticate(4, 0);
    count_again();
    return surprises != 0;
}
