/*
 * Limpetnook for callers in C and C++.
 *
 * The functions are proved. What is said of them below holds for every call
 * that keeps the caller's side. No compiler checks that side and no function
 * can test it. docs/TRUST.md says what the proofs rest on.
 *
 * No function keeps anything between calls or allocates memory. Calls may run
 * at the same time, from several threads or from an interrupt, as long as
 * nothing else writes a buffer of a running call or reads its output.
 *
 * What to link: liblimpetnook.a, which has all that is declared here. tools/library
 * proves and makes it for six processors; `tools/library --list` names them. For a
 * program on x86-64 with Linux:
 *
 *   tools/library x86_64-linux
 *   gcc -std=c11 -Iinclude examples/client.c target/library/x86_64-linux/liblimpetnook.a -o client
 *
 * docs/C.md leads through all of it, with a whole program, examples/client.c, and
 * docs/PROCESSORS.md has the other processors. The bytes of commands and answers are
 * in docs/COMMANDS.md.
 *
 * What is taken at most on x86-64, measured and not proved (tests/footprint);
 * docs/PROCESSORS.md has the same of the others:
 *
 *                     code    constants   stack of a call      C functions needed
 *   liblimpetnook.a   76500   1250        LIMPET_TEXT_STACK    memcpy, memset
 *   limpet_aes128     1547    0           LIMPET_AES128_STACK  none
 *   limpet_code       2850    1008        LIMPET_CODE_STACK    memcpy
 *
 * The other two rows are each for a program that calls that function alone and is
 * linked with --gc-sections: each function is in a section of its own. A program
 * without a C library has to bring along what is needed of it.
 */
#ifndef LIMPETNOOK_H
#define LIMPETNOOK_H

#include <stddef.h>
#include <stdint.h>

#ifdef __cplusplus
extern "C" {
#endif

/*
 * A number of bytes: 64 bits on every processor. On a 64-bit Linux it is what size_t
 * is. On a 32-bit processor it is wider, so a count there has to be a limpet_size.
 */
typedef uint64_t limpet_size;

/* The library is for bytes of 8 bits. */
typedef char limpet_a_byte_has_8_bits[sizeof(limpet_size) == 8 ? 1 : -1];

/*
 * The version of the library that this header describes. It rises by one with
 * each change of the card, the cipher or the calls, which the size of a card
 * need not show.
 * Compare it once, at the start:
 *
 *   if (limpet_version() != LIMPET_VERSION) ... header and library do not match
 */
#define LIMPET_VERSION 12

uint32_t limpet_version(void);

/*
 * The bytes of stack that are enough for a call: on a card, of its two calls
 * for a text and the two that convert one, of limpet_aes128, and of limpet_code.
 */
#ifdef __x86_64__
#define LIMPET_CARD_STACK 6144
#else
#define LIMPET_CARD_STACK 6400
#endif
#define LIMPET_TEXT_STACK 18432
#define LIMPET_AES128_STACK 512
#define LIMPET_CODE_STACK 768

/* Outcomes. The numbers are fixed: scripts print them too. */
#define LIMPET_OK 0          /* served */
#define LIMPET_SHORT_REPLY 1 /* the reply buffer is under 258 bytes */
#define LIMPET_BAD_AREA 2    /* the data area is not 4,096 bytes long */
#define LIMPET_BAD_RANDOM 3  /* the random input is not 16 bytes long */
#define LIMPET_UNSOUND 4     /* card and area are together no state of a card */
#define LIMPET_BAD_ISSUE 5   /* issue: a key, a PIN, a limit or the mode is not good */
#define LIMPET_BAD_LENGTH 6  /* cipher and code: a key, block, challenge or output of another length */
#define LIMPET_SHORT_TEXT 10 /* the buffer is shorter than the card's text */
#define LIMPET_BAD_TEXT 11   /* the text is not the lines of a card */
#define LIMPET_DIRECTORY 13  /* the card has a directory, and the old form has none */

/* Bytes of a key, of a block and of an output of limpet_aes128. */
#define LIMPET_AES128_SIZE 16

/* Bytes of the buffers of a card's calls. */
#define LIMPET_AREA_SIZE 4096  /* the data area: exactly */
#define LIMPET_RANDOM_SIZE 16  /* fresh random bytes: exactly */
#define LIMPET_KEY_SIZE 16     /* the device key and the transport key: exactly */
#define LIMPET_REPLY_SIZE 258  /* the reply: at least */
#define LIMPET_TEXT_SIZE 9559  /* the text of a card: no card has a longer one */

/* Bytes of the code at the end of a coded command: exactly. */
#define LIMPET_CODE_SIZE 4

/*
 * Status words, the last two bytes of an answer: those that a program needs by
 * name. docs/COMMANDS.md has all of them.
 */
#define LIMPET_SW_DONE 0x9000         /* done */
#define LIMPET_SW_NO_RIGHT 0x6982     /* missing: a PIN, the device login, or a code */
#define LIMPET_SW_BLOCKED 0x6983      /* no tries are left, so nothing was compared */
#define LIMPET_SW_NO_CHALLENGE 0x6984 /* GET CHALLENGE has to come right before */
#define LIMPET_SW_WRONG_CODE 0x6988   /* the code is wrong, and there is a try less */

/* 61xx, only from a card of mode 1: done, and so many bytes wait, 1 to 256. */
#define LIMPET_SW_IS_WAITING(sw) (((sw) & 0xFF00) == 0x6100)
#define LIMPET_SW_WAITING(sw) ((((sw) - 1) & 0xFF) + 1)

/*
 * 63Cx: what was presented is wrong, or nothing was presented; and so many tries
 * are left, where 15 stands for 15 or more.
 */
#define LIMPET_SW_IS_TRIES(sw) (((sw) & 0xFFF0) == 0x63C0)
#define LIMPET_SW_TRIES(sw) ((sw) & 0x0F)

/*
 * AES-128 of one block under a key (FIPS 197, encryption).
 *
 * Each buffer is a pointer and the number of bytes there. All three numbers
 * are to be LIMPET_AES128_SIZE.
 *
 *   LIMPET_OK          out holds the block enciphered under the key: 16 bytes,
 *                      each of them written, in the order of FIPS 197.
 *   LIMPET_BAD_LENGTH  a number is not 16. out is as it was.
 *
 * There is no other outcome. key and block are never written, and neither is
 * any byte before or after out.
 *
 * The caller's side:
 *   - key_len bytes at key and block_len bytes at block can be read, and
 *     out_len bytes at out can be read and written, during the whole call.
 *     A number that will be refused must not be more than the buffer holds
 *     either.
 *   - A pointer may be NULL, or point nowhere, only where its number is 0.
 *   - out overlaps neither key nor block. In particular a block cannot be
 *     enciphered in place. key and block may overlap, or be the same buffer.
 *
 * No buffer has to be aligned. Which instructions a call runs, and at which
 * addresses it reads and writes, depends on the pointers and the numbers alone
 * and not on the bytes of key and block. That was seen in the compiled code for
 * x86-64, aarch64, Cortex-M33 and Cortex-M4, and not in that for armv7 and riscv64,
 * and is not proved (tests/constant-time). How long a processor takes for the same
 * instructions at the same addresses is its maker's matter.
 */
uint8_t limpet_aes128(const uint8_t *key, limpet_size key_len,
                      const uint8_t *block, limpet_size block_len,
                      uint8_t *out, limpet_size out_len);

/*
 * The code of a command, for the main board's side: for whoever sends commands to
 * a card over a bus on which others may listen and write. No card is needed.
 *
 * A coded command has the class 04, and is one of READ BINARY, UPDATE BINARY, READ
 * RECORD, UPDATE RECORD and APPEND RECORD. Its data end with the four bytes of the
 * code, which Lc counts:
 *
 *   04 INS P1 P2 Lc data code      an update or an append; Lc is 05 or more
 *   04 INS P1 P2 04 code Le        a read
 *
 * To send one: have the card's GET CHALLENGE (00 84 00 00 and 04, 08 or 10), work
 * out the code, and send the command as the next one; on a card of mode 1 behind
 * the GET RESPONSE that has the challenge. Each coded command needs a challenge of
 * its own. Any other command in between drops it, also one that somebody else sends.
 *
 *   key        the transport key that the card was issued with, LIMPET_KEY_SIZE bytes
 *   challenge  the card's reply to GET CHALLENGE, 4, 8 or 16 bytes
 *   message    the command up to the code: 04, INS, P1, P2, Lc as it is sent, and
 *              the data before the code; of any length, also none. Le is not in it
 *   code       LIMPET_CODE_SIZE bytes
 *
 *   LIMPET_OK          code holds the code of the message: the first four bytes of
 *                      the last block of AES-128 in CBC mode under the key, over the
 *                      message, one byte 80, and bytes 00 up to a multiple of 16;
 *                      from the challenge on, filled with 00 to 16 bytes.
 *   LIMPET_BAD_LENGTH  key_len is not 16, challenge_len not 4, 8 or 16, or code_len
 *                      not 4. code is as it was.
 *
 * There is no other outcome. key, challenge and message are never written, and
 * neither is any byte before or after code. The caller's side is that of
 * limpet_aes128: code overlaps none of the other three, and those may overlap.
 *
 * The card takes a code for a presentation of the transport key. Nothing else
 * happens at a wrong one, 6988, but a try less and the challenge dropped. A right
 * one restores all tries, whatever the status word behind it. With no tries left it
 * is 6983 for good: no call and no command gives a transport key new tries or another
 * value. So choose the limit for a bus on which bits go wrong.
 *
 * A code keeps a command from being altered, made up or sent again. It hides
 * nothing: data and replies pass as they are. The answer has no code, so a clip on
 * the bus can alter that. Nor does the code cover Le, so it can have a read give
 * more or fewer bytes. Give each card a key of its own: of two that have the same
 * one, each takes the other's commands where their challenges are the same.
 *
 * Which instructions a call runs, and at which addresses it reads and writes, depends
 * on the pointers and the numbers alone and not on the bytes, as with limpet_aes128; on
 * Arm that was seen for messages of six lengths from 0 to 53 bytes.
 */
uint8_t limpet_code(const uint8_t *key, limpet_size key_len,
                    const uint8_t *challenge, limpet_size challenge_len,
                    const uint8_t *message, limpet_size message_len,
                    uint8_t *code, limpet_size code_len);

/*
 * A card: its credentials, tries, directories, files and session. What is in it
 * is not for C to read or write; the contents of its files are in the data area.
 * It holds the keys and the PINs as they are: keep it where nobody else can read.
 *
 * The caller keeps the card and its area of 4,096 bytes, and lends both to each
 * call, always the same two together. The call changes them in place. While no
 * call runs a card may be copied byte by byte, together with its area.
 *
 * A card does not know its own area from another's. With another's it is refused
 * with LIMPET_UNSOUND where the lengths of its records of type 2C, which stand in
 * the area, do not fit; otherwise it is served as if the area were its own.
 *
 * No call stores anything where it outlasts the power. That is the caller's:
 *
 *   - Store card and area, both, after each command and before its answer leaves
 *     the program. If the answer leaves first, whoever then cuts the power has
 *     tried a PIN, and the try is not counted. Where they cannot be stored, give
 *     no answer and no further command; go on from what is stored.
 *   - Store a copy, by limpet_to_text or byte by byte, and have the old one stay
 *     until the new one is whole. Or make the single stores of limpet_store, in
 *     their order, in a memory that can, and recover by limpet_recover.
 *   - Lend no call memory that outlasts the power. A call changes card and area in
 *     place and in any order. What a loss of power in its middle leaves of them may
 *     be no card, or another one, and limpet_recover is not for that.
 *   - Reset a card that was without power, by limpet_reset, before its first
 *     command. A text, and a copy, bring back the rights that were held in it.
 *   - Whoever puts an earlier text or copy back puts the tries of then back too.
 */
struct limpet_card;

/*
 * The bytes that a card takes. They need no alignment, and there is no padding
 * among them. A buffer of malloc(limpet_card_size()) will do, and so will
 *
 *   static uint8_t kept[LIMPET_CARD_SIZE];
 *   struct limpet_card *card = (struct limpet_card *)kept;
 *
 * once limpet_version() was seen to be LIMPET_VERSION.
 */
#define LIMPET_CARD_SIZE 581

limpet_size limpet_card_size(void);

/*
 * Issues a card: full tries, no files and no directories, the root current, no
 * right held, no challenge, nothing waiting, and an area of 00. What the card's
 * bytes were before does not matter.
 *
 * The device key is LIMPET_KEY_SIZE bytes. A PIN is 6 to 16 bytes, each an
 * ASCII digit. A limit, of wrong presentations in a row, is 1 to 128. The mode
 * is 0 or 1, for good: in mode 0 a command's data come with its answer, in
 * mode 1 they wait to be fetched, as readers that speak T=0 need it.
 *
 * The transport key is LIMPET_KEY_SIZE bytes too, and stays for good with its limit,
 * of wrong codes in a row. It opens no right: limpet_code makes codes with it. The
 * main board has the same key; a card whose files ask for no codes has one as well,
 * of random bytes that nobody keeps where none is to be used.
 *
 *   LIMPET_OK         the card is issued.
 *   LIMPET_BAD_AREA   area_len is not LIMPET_AREA_SIZE.
 *   LIMPET_BAD_ISSUE  a key, a PIN, a limit or the mode is not as said above.
 *
 * There is no other outcome, and the first that applies is returned. On a
 * refusal the area is as it was and the card is blank, each byte of it 00: a
 * card that was there is gone. The other calls refuse a blank card. To keep an
 * earlier card, issue into another one.
 */
uint8_t limpet_issue(struct limpet_card *card,
                     uint8_t *area, limpet_size area_len,
                     const uint8_t *key, limpet_size key_len, uint16_t device_limit,
                     const uint8_t *admin_pin, limpet_size admin_pin_len, uint16_t admin_limit,
                     const uint8_t *user_pin, limpet_size user_pin_len, uint16_t user_limit,
                     uint16_t mode,
                     const uint8_t *transport_key, limpet_size transport_key_len, uint16_t transport_limit);

/*
 * Gives the card one command, of any bytes and any length, also none, and has
 * its reply: data, and behind them the two bytes of the status word.
 *
 * random is LIMPET_RANDOM_SIZE bytes that were never used before and that
 * nobody can foresee; a challenge is made of them. reply is at least
 * LIMPET_REPLY_SIZE bytes, whatever the command.
 *
 *   LIMPET_OK           the command was processed; a status word that refuses
 *                       counts too. The first *reply_count bytes of the reply,
 *                       2 to 258, are the answer. Its last two are the status
 *                       word, high byte first. The rest of the reply is as it
 *                       was. Card and area are as the command leaves them.
 *   LIMPET_SHORT_REPLY  reply_len is under LIMPET_REPLY_SIZE.
 *   LIMPET_BAD_AREA     area_len is not LIMPET_AREA_SIZE.
 *   LIMPET_BAD_RANDOM   random_len is not LIMPET_RANDOM_SIZE.
 *   LIMPET_UNSOUND      card and area are together no state of a card.
 *
 * There is no other outcome, and the first that applies is returned. On a
 * refusal card, area and reply are as they were, and *reply_count is 0: there is
 * no status word, and reply[*reply_count - 2] is outside of the reply.
 *
 * On a card of mode 1 the answer to a command that has data is the status word
 * 61xx alone: xx bytes wait in the card, 00 for 256. It counts as 9000. The
 * command 00 C0 00 00 Le, GET RESPONSE, has the next Le of them as its data, and
 * with Le 00 all; its status word is 61 and the number of those that still wait,
 * or 9000 after the last. A refused GET RESPONSE loses none, and none drops the
 * challenge. Any other command that is processed discards what waits, and so does
 * a reset. In mode 0 there is no GET RESPONSE, and nothing waits.
 */
uint8_t limpet_command(struct limpet_card *card,
                       uint8_t *area, limpet_size area_len,
                       const uint8_t *command, limpet_size command_len,
                       const uint8_t *random, limpet_size random_len,
                       uint8_t *reply, limpet_size reply_len,
                       limpet_size *reply_count);

/*
 * Resets the card, as taking it out of the reader does: no right is held, the
 * root is the current directory, no file is current, there is no challenge,
 * nothing waits. Tries, PINs, directories, files and the mode stay. The area is
 * only read.
 *
 *   LIMPET_OK        the card is reset.
 *   LIMPET_BAD_AREA  area_len is not LIMPET_AREA_SIZE.
 *   LIMPET_UNSOUND   card and area are together no state of a card.
 *
 * There is no other outcome, and the first that applies is returned. On a
 * refusal the card is as it was.
 */
uint8_t limpet_reset(struct limpet_card *card, const uint8_t *area, limpet_size area_len);

/*
 * The n-th store that a command makes, from 0 on: for a module whose memory keeps
 * its bytes without power and stores them one at a time. docs/POWER.md says which
 * memories do so; flash that is programmed directly does not. A store is one byte of
 * the card or of the area. Card and area are only read.
 *
 *   LIMPET_OK          *given is 1: *value is to be stored at *address. An address
 *                      below LIMPET_CARD_SIZE is that byte of the card as it lies in
 *                      memory. From LIMPET_CARD_SIZE on it is a byte of the area,
 *                      which lies behind the card. Or *given is 0, and so are
 *                      *address and *value: the command makes at most n stores.
 *   LIMPET_BAD_AREA    area_len is not LIMPET_AREA_SIZE.
 *   LIMPET_BAD_RANDOM  random_len is not LIMPET_RANDOM_SIZE.
 *   LIMPET_UNSOUND     card and area are together no state of a card.
 *
 * There is no other outcome, and the first that applies is returned. On a
 * refusal *given, *address and *value are 0.
 *
 * Made in their order, all stores of a command leave of card and area what
 * limpet_command leaves, but for what does not outlast the power: rights, current
 * file and directory, challenge, and what waits. After any number of them, from none
 * to all, limpet_recover makes a card of what is there.
 *
 * A module with such a memory keeps a copy of card and area where the power takes
 * it. For each command it does this, as examples/flash.c shows:
 *
 *   for n = 0, 1, 2 and so on, until *given is 0:
 *       limpet_store on the copy, and *value into the memory at *address
 *   limpet_command on the same copy
 *   the answer
 *
 *   - Every n is asked for on one card, the copy as it was before the command. On a
 *     card in which some of the stores were made the answer is LIMPET_UNSOUND, or the
 *     stores of something else. So make them in the memory, and not in the copy.
 *   - Command and random input are the same for every n and for limpet_command, and
 *     reply_len is at least LIMPET_REPLY_SIZE there: refused by LIMPET_SHORT_REPLY, it
 *     leaves the copy without what the memory has.
 *   - Store n is in the memory before n + 1 is asked for. Where a PIN, a cryptogram or
 *     a code is presented, store 0 lowers the tries, and is given before anything is
 *     compared. Whether there is a store 1 says that it was right.
 *   - No answer leaves before the last store is in the memory. Where one cannot be
 *     made, give no answer and no further command; go on as after a loss of power.
 *
 * Each call checks card, area and command anew; limpet_stores below does it once for
 * many stores.
 */
uint8_t limpet_store(const struct limpet_card *card,
                     const uint8_t *area, limpet_size area_len,
                     const uint8_t *command, limpet_size command_len,
                     const uint8_t *random, limpet_size random_len,
                     limpet_size n,
                     uint16_t *address, uint8_t *value, uint8_t *given);

/*
 * The same stores, many at once: for a command that makes thousands of them, since
 * each call checks card and area anew. From number first on they are written to
 * stores, three bytes each: the address, high byte first, and the value. Bytes behind
 * them stay as they were.
 *
 *   LIMPET_OK          *count is how many stores were written. 0: the command makes
 *                      at most first stores, or stores_len is below 3.
 *   LIMPET_BAD_AREA, LIMPET_BAD_RANDOM, LIMPET_UNSOUND
 *                      as limpet_store. *count is 0, and stores is as it was.
 *
 * With first 0 there is one store at the most, whatever stores_len is: where
 * something is presented it must be in the memory before anything is compared. So ask
 * for number 0, make that store, and then ask from number 1 on.
 */
uint8_t limpet_stores(const struct limpet_card *card,
                      const uint8_t *area, limpet_size area_len,
                      const uint8_t *command, limpet_size command_len,
                      const uint8_t *random, limpet_size random_len,
                      uint16_t first,
                      uint8_t *stores, limpet_size stores_len, limpet_size *count);

/*
 * Makes a card of what a loss of power left in such a memory, in the middle of a
 * command, in the middle of a recovery, or between two commands. Call it at each
 * start, on card and area as they are read from the memory, then limpet_reset, and
 * then give the first command. The area is only read.
 *
 *   LIMPET_OK        the card is sound, and reset. What the command that was cut was
 *                    about to change is as docs/POWER.md says: a PIN is wholly the
 *                    old one or the new one, a new file is there whole or not at all,
 *                    a record too. All else is as it was.
 *   LIMPET_BAD_AREA  area_len is not LIMPET_AREA_SIZE.
 *   LIMPET_UNSOUND   no sound card results. No loss of power leaves such bytes: the
 *                    memory is damaged, or has no card.
 *
 * There is no other outcome, and the first that applies is returned. On a
 * refusal the card is as it was.
 *
 * What does not outlast the power may be any bytes before, and is cleared. A sound card
 * is left as limpet_reset leaves it.
 *
 * Store the bytes of the card that the call has changed before the first command, from
 * the lowest address to the highest. Where the power is lost in between, the next
 * recovery gives the same card.
 */
uint8_t limpet_recover(struct limpet_card *card, const uint8_t *area, limpet_size area_len);

/*
 * Writes a card and its files as lines of text. docs/CARD-FILE.md says what
 * stands in them: all that the card holds, the keys, the PINs and the bytes that
 * wait too. Card and area are only read.
 *
 *   LIMPET_OK          the first *text_count bytes of the buffer are the text.
 *                      The rest of the buffer is as it was. There is no byte 0
 *                      behind the text.
 *   LIMPET_BAD_AREA    area_len is not LIMPET_AREA_SIZE.
 *   LIMPET_UNSOUND     card and area are together no state of a card.
 *   LIMPET_SHORT_TEXT  the text has more than text_len bytes. A buffer of
 *                      LIMPET_TEXT_SIZE is long enough for every card.
 *
 * There is no other outcome, and the first that applies is returned. On a
 * refusal the buffer is as it was, and *text_count is 0.
 */
uint8_t limpet_to_text(const struct limpet_card *card,
                       const uint8_t *area, limpet_size area_len,
                       uint8_t *text, limpet_size text_len,
                       limpet_size *text_count);

/*
 * Reads a card and its files from such a text. What the card's bytes were
 * before does not matter.
 *
 *   LIMPET_OK        card and area are those whose text this is. Bytes of the
 *                    area behind the last file are 00.
 *   LIMPET_BAD_AREA  area_len is not LIMPET_AREA_SIZE.
 *   LIMPET_BAD_TEXT  the text is not, byte for byte, what limpet_to_text writes
 *                    of some card.
 *
 * There is no other outcome, and the first that applies is returned. On a
 * refusal the area is as it was and the card is blank, each byte of it 00: a
 * card that was there is gone. To keep an earlier card, read into another one.
 *
 * The card has the rights, the current directory, the challenge and the waiting
 * bytes of its text. Where it was without power meanwhile, limpet_reset has to come
 * next. A text that was cut off behind a directory or a file may not be refused: it
 * can be that of a card without what followed. So store a text as a whole or not at
 * all. A text of version 10 or earlier is refused: it has no transport key.
 *
 * A text that was read and is written again is the same text. A card that was
 * written and is read again is the same card with the same files.
 */
uint8_t limpet_from_text(struct limpet_card *card,
                         uint8_t *area, limpet_size area_len,
                         const uint8_t *text, limpet_size text_len);

/*
 * Before there were directories a card's text had another form. It is the old
 * form; what limpet_to_text writes is the new one. docs/CARD-FILE.md has both
 * side by side. These two make a text of the one form out of a text of the other:
 * that of the same card, with the same files, tries, keys, PINs and session. No card
 * and no area is needed. The first *text_count bytes of the buffer are the text then.
 * Both forms have a line for the transport key: a text of version 10 or earlier,
 * of either form, is refused.
 *
 * limpet_text_to_new: old is a text of the old form. In the new text every file
 * lies in the root, and the root is the current directory.
 *
 * limpet_text_to_old: text_given is a text of the new form, of a card without
 * directories.
 *
 *   LIMPET_OK          the buffer has the text. The rest of the buffer is as it
 *                      was. There is no byte 0 behind the text.
 *   LIMPET_BAD_TEXT    the text that is given is not, byte for byte, the text of a
 *                      card in the form that it is to have.
 *   LIMPET_DIRECTORY   limpet_text_to_old alone: the card has a directory, with
 *                      files in it or without.
 *   LIMPET_SHORT_TEXT  the text has more than text_len bytes. A buffer of
 *                      LIMPET_TEXT_SIZE is long enough for every card.
 *
 * There is no other outcome, and the first that applies is returned. On a refusal
 * the buffer is as it was, and *text_count is 0.
 *
 * A text that is converted and converted back is the same text. With a buffer of
 * LIMPET_TEXT_SIZE limpet_text_to_new serves exactly the texts of the old form;
 * those of the new one are what limpet_text_to_old serves, and what it refuses with
 * LIMPET_DIRECTORY.
 */
uint8_t limpet_text_to_new(const uint8_t *old, limpet_size old_len,
                           uint8_t *text, limpet_size text_len,
                           limpet_size *text_count);

uint8_t limpet_text_to_old(const uint8_t *text_given, limpet_size given_len,
                           uint8_t *text, limpet_size text_len,
                           limpet_size *text_count);

/*
 * The caller's side of the eight calls on a card and of the two that convert a
 * text:
 *   - card points to limpet_card_size() bytes that can be read, and written
 *     too where the pointer is not to const, and is never NULL. reply_count,
 *     text_count and count each point to a limpet_size, and address to a uint16_t, aligned as
 *     such, value and given to a byte; none is NULL, and what they hold before does
 *     not matter.
 *   - Each other buffer is a pointer and a number of bytes. So many bytes can
 *     be read there, and written too where the pointer is not to const, during
 *     the whole call. That counts for a number that will be refused as well. A
 *     pointer may be NULL, or point nowhere, only where its number is 0. No such
 *     buffer has to be aligned.
 *   - card, a count, address, value, given and every buffer that the call may write
 *     overlap neither each other nor any other buffer of the call. Those that are
 *     only read may overlap.
 *
 * The bytes of card and area may be any. Where they are together no state of a
 * card they are refused with LIMPET_UNSOUND. Where they are one they are served
 * as that card, even where no call ever left them so. No byte before or after a
 * buffer is written.
 */

#ifdef __cplusplus
}
#endif

#endif
