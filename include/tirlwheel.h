/* Tirlwheel: a MIFARE Classic card in software, of the old edition and of EV1. Link with what `./libraries` builds (x86-64 Linux):
 *
 *   libcardedge.a  tirlwheel_card_frame and tirlwheel_card_reset: a card of either edition, with its record
 *   libcardchip.a  tirlwheel_card_sealed_frame: the same for frames that have their checksum
 *   libkeptedge.a  tirlwheel_kept_frame and tirlwheel_kept_reset: the same as libcardedge.a's, with the card's figures beside its record
 *   libkeptchip.a  tirlwheel_kept_sealed_frame: the same for frames that have their checksum
 *   libedge.a      tirlwheel_frame and tirlwheel_field_reset, the short form for an old card; tirlwheel_version
 *   libchip.a      tirlwheel_sealed_frame, the short form for frames that have their checksum
 *   libevprint.a   tirlwheel_play_ev1, and libprintout.a  tirlwheel_play: the players
 *   libdesk.a      tirlwheel_open, which counts the figures; tirlwheel_lookup, tirlwheel_mend, tirlwheel_write_directory,
 *                  tirlwheel_read_directory, tirlwheel_write_access and tirlwheel_read_access: the desk's tools
 *
 * A board whose frames all have their checksum links libcardchip.a, and libcardedge.a as well if it needs the field reset. One that keeps
 * figures links libkeptedge.a or libkeptchip.a instead, and libdesk.a for the opening.
 *
 * The libraries open nothing, allocate nothing and keep nothing between calls: image, records and reply are the caller's.
 * Each call's result is proved for every input. What no proof covers is the caller's part: each pointer is good for the length
 * that goes with it, also where that is 0; no pointer is null; and what one call is given does not overlap.
 */
#ifndef TIRLWHEEL_H
#define TIRLWHEEL_H

#include <stddef.h>
#include <stdint.h>

#ifdef __cplusplus
extern "C" {
#endif

#define TIRLWHEEL_CARD 4          /* bytes of a card's record */
#define TIRLWHEEL_SESSION 12      /* bytes of a session's record */
#define TIRLWHEEL_FIGURES 16      /* bytes of a card's figures */
#define TIRLWHEEL_REPLY 16        /* bytes of a reply */
#define TIRLWHEEL_SEALED_REPLY 18 /* bytes of a reply with its checksum */
#define TIRLWHEEL_PRINTOUT 65536  /* bytes of the player's buffer */
#define TIRLWHEEL_REPORT 768      /* bytes of a report on mended blocks */
#define TIRLWHEEL_NAMES 256       /* blocks that one call mends at most */
#define TIRLWHEEL_INFOS 2         /* info bytes of a directory */
#define TIRLWHEEL_NUMBERS_1 30    /* bytes of the numbers of a directory of version 1: fifteen */
#define TIRLWHEEL_NUMBERS_2 76    /* and of version 2: thirty-eight */
#define TIRLWHEEL_GROUPS 4        /* access groups of a sector */

/* A result holds the number in its low byte, the sign in the next, and the value of an EV1's NAK in the one behind; the last is 0. */
#define TIRLWHEEL_NUMBER(result) ((result) & 0xFFu)
#define TIRLWHEEL_SIGN(result) ((result) >> 8 & 0xFFu)
#define TIRLWHEEL_VALUE(result) ((result) >> 16 & 0xFFu)

/* What went on the air. */
#define TIRLWHEEL_ACK 0u
#define TIRLWHEEL_NAK 1u
#define TIRLWHEEL_DATA 2u /* the sixteen bytes of a Read, with their checksum if the frame had one */
#define TIRLWHEEL_NOTHING 3u

/* The value of an EV1's NAK, by section 9.3 of its sheet. The transfer buffer there is the register here, as the session that was handed
 * to the call has it: a refusal empties it, and the value still tells of it.
 *
 *   0h  the register was full, invalid operation: every number but 14
 *   1h  the register was full, checksum error: 14
 *   4h  the register was empty, invalid operation
 *   5h  the register was empty, checksum error
 *
 * An old card's NAK has no value, and neither has any other sign: there the byte is 0, so ask for the sign and the edition first. */

/* The record of a card. Four zeros are an old one, and 1 0 0 0 is an EV1 as it is delivered: start with either.
 *
 *   byte 0  the edition: 0 old, 1 EV1
 *   byte 1  how its UID is used: 0 open to a choice, 1 locked for good
 *   byte 2  the type that was chosen: 00h, 40h, 20h or 60h, for UIDF0 to UIDF3 of the sheet; 0 where it is open
 *   byte 3  0
 *
 * Only an accepted Personalize UID Usage changes it, on an EV1: keep it where the image is kept, since the choice outlives every field
 * reset. An old card whose record has a choice is a card like any other old one; the choice changes nothing there and stays as it is. */
#define TIRLWHEEL_OLD 0u
#define TIRLWHEEL_EV1 1u

/* The numbers. 0 is accepted. Every other is a refusal: it changes no byte of the image or of the card's record, clears the reply and
 * leaves the fresh session, so the authentication, an awaited second frame and the register are gone. The first that applies is given,
 * in this order:
 *
 *   11  the four bytes are no card's record; the image is not 1,024 or 4,096 bytes long, or not 4,096 for an EV1
 *                                                                                                           nothing on the air
 *   12  the session names a sector the image lacks, or has a stage or a full register with nobody authenticated,
 *       or the twelve bytes are no session's record                                                         nothing
 *   29  the figures are outside their ranges; a Halt's too
 *       (tirlwheel_kept_frame and tirlwheel_kept_sealed_frame only)                                         nothing
 *   14  fewer than three bytes, or the last two are not the checksum of the rest; a Halt's too
 *       (tirlwheel_kept_sealed_frame, tirlwheel_card_sealed_frame and tirlwheel_sealed_frame only)          NAK
 *    1  unknown code, wrong length, empty frame, or a Halt whose second byte is not 00h                     nothing
 *    2  no such block                                                                                       NAK
 *    3  the block's sector is not the authenticated one, or none is                                         NAK
 *    5  the sector is blocked: its access bits are malformed                                                NAK
 *    4  the key differs (Authenticate only)                                                                 nothing
 *    6  Write, value operation or Transfer on block 0; value operation or Transfer on a trailer             NAK
 *    7  the key has not the right                                                                           NAK
 *    8  the source is not a value block                                                                     NAK
 *    9  Transfer with an empty register                                                                     NAK
 *   13  the operand of an increment or a decrement is below zero                                            NAK
 *   10  the result of a value operation is outside -2,147,483,648 to 2,147,483,647                          NAK
 *   29  the figures would leave their ranges with what is to be stored (the same two calls as above)        nothing
 *
 * Personalize UID Usage, 40h and one byte for the type, is an EV1's: to an old card it is an unknown code, 1. It is refused with 3, 5
 * and 7 as a Read of block 0 is, and then with
 *
 *   17  none of the four types                                                                              NAK
 *   18  a choice is locked already, be it the same                                                          NAK
 */

/* The record of a session. Twelve zeros are the fresh one: start with them.
 *
 *   byte 0       who is authenticated: 0 nobody, 1 key A, 2 key B
 *   byte 1       for which sector; 0 for nobody
 *   byte 2       which second frame is awaited: 0 none, 1 a Write's, 2 an increment's, 3 a decrement's, 4 a restore's
 *   byte 3       for which block; 0 for none
 *   byte 4       the register: 0 empty, 1 full
 *   byte 5       its address byte; 0 where it is empty
 *   bytes 6, 7   0
 *   bytes 8..11  its value, low byte first; 0 where it is empty
 */

/* One frame, as a reader sends it, without checksum, to the card whose record is `card`. `session` is the record before the frame, and
 * afterwards the one to hand to the next call. `image` is changed by an accepted Write or Transfer only, in that block's sixteen bytes,
 * and `card` by an accepted Personalize UID Usage only, which keeps image and session: ACK, and its choice is locked. `reply` is the
 * block for an accepted Read and sixteen zeros for every other answer. Four bytes that are no card's record stand for no card: 11, and
 * they come back as they were. */
uint32_t tirlwheel_card_frame(uint8_t *image, size_t image_len, uint8_t card[4], uint8_t session[12], const uint8_t *frame,
                              size_t frame_len, uint8_t reply[16]);

/* One frame as a reader chip hands it over: the bytes of a frame, then their CRC_A of ISO/IEC 14443-3, low byte first. With a
 * right checksum it is answered as tirlwheel_card_frame answers the bytes before it; so 1 judges the length without it. `reply` is the
 * block and its checksum for an accepted Read and eighteen zeros for every other answer. The records are those of
 * tirlwheel_card_frame: the two may be called in turn, and the field reset is tirlwheel_card_reset. */
uint32_t tirlwheel_card_sealed_frame(uint8_t *image, size_t image_len, uint8_t card[4], uint8_t session[12], const uint8_t *frame,
                                     size_t frame_len, uint8_t reply[18]);

/* The reader's field went away and came back. Always accepted, whatever the twelve bytes were, and the four: number 0, nothing on the
 * air, the fresh session, sixteen zeros. The card's record stays as it is, and so does its choice. */
uint32_t tirlwheel_card_reset(const uint8_t card[4], uint8_t session[12], uint8_t reply[16]);

/* The figures of a card: how many of its blocks are value blocks, and the sum of their values. Block 0 and the trailers do not count,
 * whatever they read as. Sixteen bytes, kept where the image and the record are kept:
 *
 *   bytes 0..7   the count, signed, low byte first
 *   bytes 8..15  the sum, signed, low byte first
 *
 * They are in range where the count is 0 to 255 and the sum is 255 times a value's range: -547,608,330,240 to 547,608,329,985. Every
 * card's are. Any sixteen bytes are figures: those outside are refused by 29, and none is taken for another. */

/* Opens a card: counts its figures in full, from the image as it stands. The result is the number: 0, or
 *
 *   11  the four bytes are no card's record; the image is not 1,024 or 4,096 bytes long, or not 4,096 for an EV1
 *
 * `figures` is written on every call: sixteen zeros for a refusal. Open again after anything but the calls below has changed the
 * image, be it a frame without figures, tirlwheel_mend, tirlwheel_write_directory or tirlwheel_write_access. */
uint32_t tirlwheel_open(const uint8_t *image, size_t image_len, const uint8_t card[4], uint8_t figures[16]);

/* One frame as for tirlwheel_card_frame and tirlwheel_card_sealed_frame, with the card's figures: `figures` are those before the frame,
 * and afterwards the ones to hand to the next call. Figures that came from an opening are a full count of the image after every call, as
 * long as these calls alone change it, and 29 never comes then. Only one block is looked at for that.
 *
 * For any figures in range: an accepted Write or Transfer of a data block takes off what the block's old content had to them and adds what
 * its new content has, 1 and its value for a value block and nothing for any other. Only what comes of both is judged, and not the step
 * between: with a count of 0 a value block may be written over a value block. If it is outside, 29, before anything is stored. Every
 * other frame gives the figures back as they came, and so does every refusal. But for 29, everything else is what the call without
 * figures gives.
 *
 * 29 comes after 11 and 12 and before 14 and 1, and once more last of all. Nothing goes on the air; the session is fresh, the reply
 * zeros; image, record and figures stay as they were. Where the four bytes are no card's record, 11, they and the figures come back as
 * they were. */
uint32_t tirlwheel_kept_frame(uint8_t *image, size_t image_len, uint8_t card[4], uint8_t figures[16], uint8_t session[12],
                              const uint8_t *frame, size_t frame_len, uint8_t reply[16]);
uint32_t tirlwheel_kept_sealed_frame(uint8_t *image, size_t image_len, uint8_t card[4], uint8_t figures[16], uint8_t session[12],
                                     const uint8_t *frame, size_t frame_len, uint8_t reply[18]);

/* The field reset as for tirlwheel_card_reset: always accepted, whatever the record, the figures and the session were. Record and figures
 * stay as they are, in range or not. */
uint32_t tirlwheel_kept_reset(const uint8_t card[4], const uint8_t figures[16], uint8_t session[12], uint8_t reply[16]);

/* The short form for an old card: what tirlwheel_card_frame, tirlwheel_card_sealed_frame and tirlwheel_card_reset give with four zeros
 * for the card's record, which an old card never changes. */
uint32_t tirlwheel_frame(uint8_t *image, size_t image_len, uint8_t session[12], const uint8_t *frame, size_t frame_len,
                         uint8_t reply[16]);
uint32_t tirlwheel_sealed_frame(uint8_t *image, size_t image_len, uint8_t session[12], const uint8_t *frame, size_t frame_len,
                                uint8_t reply[18]);
uint32_t tirlwheel_field_reset(uint8_t session[12], uint8_t reply[16]);

/* Plays a script on an old card (an image and its events, in the format that the README shows) and writes the printout from the start
 * of the buffer; the rest of the buffer stays as it was. Gives the printout's length. A script that is refused (20 to 24) prints one
 * line. */
size_t tirlwheel_play(const uint8_t *script, size_t script_len, uint8_t printout[65536]);

/* The same on an EV1. Its script has a third section behind the events: a count of one byte and, where that is 1, the type that is locked
 * at the start. The `N` of a NAK is followed by its value as one hexadecimal digit, with no space. The image must have 4,096 bytes, or 21
 * refuses the script. Two refusals are new: 25, the count is above 1, and 26, the type is none of the four; 20, where bytes are missing,
 * and 24, where some are left over, go by the new end. */
size_t tirlwheel_play_ev1(const uint8_t *script, size_t script_len, uint8_t printout[65536]);

/* The desk's other tools take no card's record: an image is looked up, mended and issued in the same way for either edition, and 11 there asks
 * for one of the two sizes alone. They take no session either: keys, rights and blocked sectors play no part. */

/* Which sector is an application's, by the MIFARE Application Directory of NXP's AN10787. The image is read as it stands: no session
 * is needed, and keys, rights and blocked sectors play no part. A result has four bytes:
 *
 *   byte 0  the number: 0 where the directory was read, else the first of these that applies
 *             11  the image is not 1,024 or 4,096 bytes long
 *             15  no directory that is known: bit 7 of the announcing byte (byte 9 of block 3) is 0, or its bits 1 and 0 are neither
 *                 01, version 1, nor 10, version 2; or version 2 on an image of 1,024 bytes
 *             16  a checksum of the announced version is wrong: byte 0 of block 1 and, for version 2, byte 0 of block 64; both must
 *                 be right even where the number stands in the first part
 *   byte 1  1 where a sector holds the number, else 0
 *   byte 2  the lowest such sector, 1 to 15 or 17 to 39; 0 where there is none
 *   byte 3  the entries that were looked at: up to and with the first match, or all of them, 15 or 38, where there is none;
 *           0 for a refusal
 *
 * `application` is the number as the note prints it, the function cluster in its high byte: a card stores the low byte first. 0 is
 * looked up like any other, and gives the lowest free sector. A number above FFFFh is held nowhere. */
#define TIRLWHEEL_FOUND(result) ((result) >> 8 & 0xFFu)
#define TIRLWHEEL_SECTOR(result) ((result) >> 16 & 0xFFu)
#define TIRLWHEEL_COUNT(result) ((result) >> 24)
uint32_t tirlwheel_lookup(const uint8_t *image, size_t image_len, uint32_t application);

/* Mends value blocks that were torn: the card was taken away while a Transfer ran. `names` are block addresses, at most 256, and the
 * blocks are mended in that order, each in the image that those before it left; a block may be named again. The image is taken as
 * it stands: no session is needed, and keys, rights and blocked sectors play no part.
 *
 * A value block has three readings of its value, each a whole number of 32 bits: bytes 0 to 3; bytes 4 to 7, inverted; bytes 8 to
 * 11. It has four readings of its address byte: byte 12; byte 13, inverted; byte 14; byte 15, inverted. Where at least two of the
 * three agree and at least three of the four, the block is rewritten in full with what they say. A sound block stays as it is.
 *
 * The result is the number of the call: 0, or the first of these that applies. Then no byte of the image changes, and the report is
 * nothing but zeros:
 *
 *   11  the image is not 1,024 or 4,096 bytes long
 *   30  more than 256 names
 *
 * `report` is written on every call, all 768 bytes of it: three bytes for each name, in the order of the names, and zeros behind
 * them. Of the three, the first is the number of that block, the other two, low byte first, are which of its bytes changed: bit i
 * is set where byte i is now another than before. A sound block has number 0 and no bit; a refused one has no bit, stays as it is,
 * and those after it are still mended:
 *
 *    2  the image has no such block
 *    6  block 0, or a trailer
 *   19  no majority: the three readings of the value all differ, or no three of the address byte's agree. Sixteen zeros are such a
 *       block: two readings of their value are 0, and the address byte's are two against two
 *
 * The figures of a card do not know of this call: open it anew afterwards. */
uint32_t tirlwheel_mend(uint8_t *image, size_t image_len, const uint8_t *names, size_t names_len, uint8_t report[768]);

/* The list of a directory, as the next two calls have it: the application numbers in the order of their sectors, two bytes each, the low
 * byte (the application code) first, the high byte (the function cluster) second. The first fifteen are those of the sectors 1 to 15;
 * version 2 has twenty-three more, of the sectors 17 to 39, since sector 16 has none. 0000h is a free sector. So the number of sector s
 * stands at the bytes 2 * s - 2 and 2 * s - 1, and for a sector above 16 at 2 * s - 4 and 2 * s - 3.
 *
 * Of the two info bytes the first is that of sector 0, the second that of sector 16, which only version 2 has. */

/* Writes the directory of an image. The length of the list chooses the version: 30 bytes are version 1, on a card of either size; 76 bytes
 * are version 2, on an image of 4,096 bytes. Written are, in full, the blocks 1 and 2, and for version 2 the blocks 64, 65 and 66: each
 * part's checksum, its info byte, its numbers. Info bytes and numbers may have any value; version 1 does not look at infos[1]. And in the
 * announcing byte (byte 9 of block 3) bit 7 is set and bits 1 and 0 become 01 or 10. All else stays as it is: the other bits of that byte,
 * bit 6 (more than one application) among them, both keys and the access bytes, the trailer of sector 16 and, under version 1, the whole
 * of sector 16. From the 69h that a card is delivered with the announcing byte becomes E9h or EAh.
 *
 * The result is the number: 0, or the first of these that applies, and then no byte changes:
 *
 *   11  the image is not 1,024 or 4,096 bytes long
 *   15  a card of fewer than sixteen sectors, which has no room for a directory; neither of the two sizes is one
 *   27  the list has neither 30 bytes nor, on an image of 4,096 bytes, 76; so also an odd number of bytes, and 76 for 1,024
 *
 * The figures of a card do not know of this call and of tirlwheel_write_access: open it anew afterwards. */
uint32_t tirlwheel_write_directory(uint8_t *image, size_t image_len, const uint8_t infos[2], const uint8_t *numbers, size_t numbers_len);

/* Reads the directory of an image in full. A result has two bytes, and above them zeros:
 *
 *   byte 0  the number: 0, or 11, 15 or 16, which mean what they mean for tirlwheel_lookup
 *   byte 1  the version, 1 or 2; 0 for a refusal
 *
 * `infos` and `numbers` are written on every call, all 78 bytes of them: the info bytes and the list, and zeros where there is nothing,
 * which is infos[1] and numbers[30] to numbers[75] for version 1, and everything for a refusal. Written again with its info bytes and
 * the first 30 bytes of the list, or all 76, a directory that was read changes no byte of the image. */
#define TIRLWHEEL_VERSION(result) ((result) >> 8 & 0xFFu)
uint32_t tirlwheel_read_directory(const uint8_t *image, size_t image_len, uint8_t infos[2], uint8_t numbers[76]);

/* Writes the access bytes of a sector: bytes 6, 7 and 8 of its trailer, from the bits of its four groups. bits[0], bits[1] and bits[2] are
 * for the groups of data blocks, bits[3] is for the trailer; each is the number C1 C2 C3, C1 counting four, so 0 to 7. All else stays
 * as it is, both keys and byte 9 of the trailer among it. A sector that was blocked no longer is: this is no frame, and it is the only
 * call that does so. Bits that shut everybody out are written like any others.
 *
 * The result is the number: 0, or the first of these that applies, and then no byte changes:
 *
 *   11  the image is not 1,024 or 4,096 bytes long
 *    2  no such sector: `sector` is 16 or more for 1,024 bytes, 40 or more for 4,096, however large it is
 *   28  the bits of a group are above 7 */
uint32_t tirlwheel_write_access(uint8_t *image, size_t image_len, uint32_t sector, const uint8_t bits[4]);

/* Reads the bits of a sector's four groups, in the form of tirlwheel_write_access. `bits` is written on every call: four zeros for a
 * refusal. The result is the number: 0, or the first of
 *
 *   11  the image is not 1,024 or 4,096 bytes long
 *    2  no such sector
 *    5  the sector is blocked: its access bytes are malformed */
uint32_t tirlwheel_read_access(const uint8_t *image, size_t image_len, uint32_t sector, uint8_t bits[4]);

/* Which boundary this is: 4. A change that a caller would notice counts it up: 2 came with frames that have their checksum, 3 with the
 * refusal of an operand below zero (13), 4 with the card's record and the EV1. */
uint32_t tirlwheel_version(void);

#ifdef __cplusplus
}
#endif

#endif
