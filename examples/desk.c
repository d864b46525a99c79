/* The card desk looks up which sector of a card is whose, says why where a directory cannot be read, mends a torn value block, and lays
 * out a new card: its directory, and the access bytes of a sector. Each line that it prints is what was asked for and what came back. Exit status 0: every answer was the expected one. */
#include "tirlwheel.h"

#include <stdio.h>
#include <string.h>

static uint8_t image[1024];
static int surprises;

/* A directory of version 1, as the desk's first cards have it: lift 4801h in sectors 2 and 5, canteen 3804h in sector 3. */
static void make_card(void)
{
    static const uint8_t directory[32] = {0x79, 0x01, 0, 0, 0x01, 0x48, 0x04, 0x38, 0, 0, 0x01, 0x48};
    memcpy(image + 16, directory, sizeof directory);
    image[57] = 0xC1;
}

static void look_up(const char *name, uint32_t application, uint32_t expected)
{
    uint32_t result = tirlwheel_lookup(image, sizeof image, application);
    printf("%s: number %u, ", name, TIRLWHEEL_NUMBER(result));
    if (TIRLWHEEL_FOUND(result))
        printf("sector %u", TIRLWHEEL_SECTOR(result));
    else
        printf("no sector");
    printf(", %u entries\n", TIRLWHEEL_COUNT(result));
    surprises += result != expected;
}

/* A value of 1,000 in block 4, taken away while its second copy was written; block 5 holds nothing that can be mended. */
static void mend(void)
{
    static const uint8_t torn[16] = {0xE8, 0x03, 0, 0, 0x17, 0xFC, 0, 0, 0xE8, 0x03, 0, 0, 0x04, 0xFB, 0x04, 0xFB};
    static const uint8_t names[4] = {4, 5, 4, 7};
    static const uint8_t expected[12] = {0, 0xC0, 0, 19, 0, 0, 0, 0, 0, 6, 0, 0};
    uint8_t report[TIRLWHEEL_REPORT];
    memcpy(image + 64, torn, sizeof torn);
    surprises += tirlwheel_mend(image, sizeof image, names, sizeof names, report) != 0;
    for (int i = 0; i < 4; i++)
        printf("block %u: number %u, changed %02X%02Xh\n", names[i], report[3 * i], report[3 * i + 2], report[3 * i + 1]);
    surprises += memcmp(report, expected, sizeof expected) != 0 || image[70] != 0xFF || image[71] != 0xFF;
}

static void expect(const char *name, uint32_t result, uint32_t expected)
{
    printf("%s: number %u\n", name, TIRLWHEEL_NUMBER(result));
    surprises += result != expected;
}

/* A card of zeros, with the announcing byte of a new one: the lift gets sector 2, whose rides either key counts down and key B alone
 * counts up. */
static void issue(void)
{
    static const uint8_t infos[TIRLWHEEL_INFOS] = {0x01, 0};
    static const uint8_t numbers[TIRLWHEEL_NUMBERS_2] = {0, 0, 0x01, 0x48};
    static const uint8_t rides[TIRLWHEEL_GROUPS] = {6, 6, 6, 3};
    uint8_t read_infos[TIRLWHEEL_INFOS], read_numbers[TIRLWHEEL_NUMBERS_2], bits[TIRLWHEEL_GROUPS];
    memset(image, 0, sizeof image);
    image[57] = 0x69;
    expect("38 numbers on a 1K card", tirlwheel_write_directory(image, sizeof image, infos, numbers, TIRLWHEEL_NUMBERS_2), 27);
    expect("15 numbers", tirlwheel_write_directory(image, sizeof image, infos, numbers, TIRLWHEEL_NUMBERS_1), 0);
    printf("announced by %02Xh\n", image[57]);
    look_up("lift", 0x4801, 0x02020100);
    uint32_t result = tirlwheel_read_directory(image, sizeof image, read_infos, read_numbers);
    printf("read: number %u, version %u, info byte %02Xh\n", TIRLWHEEL_NUMBER(result), TIRLWHEEL_VERSION(result), read_infos[0]);
    surprises += result != 0x0100 || memcmp(infos, read_infos, sizeof infos) != 0 || memcmp(numbers, read_numbers, sizeof numbers) != 0;
    expect("access bytes of sector 2", tirlwheel_write_access(image, sizeof image, 2, rides), 0);
    expect("read back", tirlwheel_read_access(image, sizeof image, 2, bits), 0);
    printf("bits %u %u %u %u, bytes %02X %02X %02X\n", bits[0], bits[1], bits[2], bits[3], image[182], image[183], image[184]);
    surprises += memcmp(rides, bits, sizeof rides) != 0;
    expect("sector 16 of a 1K card", tirlwheel_write_access(image, sizeof image, 16, rides), 2);
    expect("sector 3, which is blocked", tirlwheel_read_access(image, sizeof image, 3, bits), 5);
}

int main(void)
{
    make_card();
    look_up("lift", 0x4801, 0x02020100);
    look_up("canteen", 0x3804, 0x03030100);
    look_up("parking", 0x4C01, 0x0F000000);
    look_up("a free sector", 0x0000, 0x01010100);
    image[17] ^= 1;
    look_up("lift, checksum wrong", 0x4801, 16);
    image[57] = 0x69;
    look_up("lift, no directory", 0x4801, 15);
    mend();
    issue();
    return surprises != 0;
}
