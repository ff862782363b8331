/* A purse in a C program: installed, started, selected, its balance read; then personalized, loaded with 1,000, and a purchase
   of 350. The terminal's side signs with the library cipher_c. Exit status 1 if anything is refused or wrongly signed.

   (cd crates/host && rt lib) && (cd crates/cipher_c && rt lib)
   cc -std=c11 -Iinclude examples/host.c crates/host/out/libhost.a crates/cipher_c/out/libcipher_c.a -o host && ./host */

#include <stdbool.h>
#include <stdio.h>
#include <stdlib.h>
#include <string.h>

#include "purse.h"

enum { BLOCK = 8, KEY = 16, KEYS = 3 * KEY, DEBIT = 1, CREDIT = 2, ADMIN = 3, WITH_RMAC = 0x11 };

/* The library cipher_c: triple DES in CBC, in place, and signatures, on either engine. */
enum { PLAIN, QUICK };

size_t cipher_cbc(uint32_t engine, const uint8_t *key, size_t key_len, const uint8_t *start, size_t start_len, uint8_t *text,
                  size_t text_len);
size_t cipher_signature(uint32_t engine, const uint8_t *key, size_t key_len, const uint8_t *start, size_t start_len,
                        const uint8_t *text, size_t text_len, uint8_t *out, size_t out_len);

/* The card, and the session with it. */
static uint8_t memory[PURSE_MEMORY], session[PURSE_SESSION], response[PURSE_RESPONSE];
static size_t response_len;

/* The terminal's end of the secure channel: session keys, and the last signature each way. */
static uint8_t enc[KEY], mac[KEY], command_mac[BLOCK], response_mac[BLOCK];

/* S-ENC, S-MAC and DEK of each key set. */
static const uint8_t keys[4][KEYS + 1] = { "", "debit S-ENC key!debit S-MAC key!debit DEK key  !",
                                           "creditS-ENC key!creditS-MAC key!creditDEK key  !",
                                           "admin S-ENC key!admin S-MAC key!admin DEK key  !" };
static const uint8_t aid[] = { 0xA0, 0x00, 0x00, 0x01, 0x51, 0x50, 0x01 };
static const uint8_t zero[BLOCK];
/* Challenges; a real card and a real terminal draw them. */
static const uint8_t host_challenge[] = "terminal", card_challenge[] = "the card";

static void check(bool right, const char *what)
{
    if (!right) {
        printf("%s went wrong\n", what);
        exit(1);
    }
}

/* Sends a command, which must be answered 9000. */
static void send(const char *name, const uint8_t *command, size_t len)
{
    uint64_t result = purse_command(memory, sizeof memory, session, sizeof session, command, len, card_challenge, PURSE_RANDOM,
                                    response, sizeof response, PURSE_NO_LIMIT);

    check(purse_answer(result) == PURSE_DONE, name);
    response_len = purse_length(result);
    printf("%-22s %2zu bytes, %3zu stores\n", name, response_len, purse_count(result));
    check(response[response_len - 2] == 0x90 && response[response_len - 1] == 0x00, name);
}

/* The signature of a text in two parts, of at most 128 bytes. */
static void sign(const uint8_t *key, const uint8_t *start, const uint8_t *a, size_t a_len, const uint8_t *b, size_t b_len,
                 uint8_t *out)
{
    uint8_t text[128];

    memcpy(text, a, a_len);
    memcpy(text + a_len, b, b_len);
    cipher_signature(QUICK, key, KEY, start, BLOCK, text, a_len + b_len, out, BLOCK);
}

/* Triple DES in ECB. */
static void encipher(const uint8_t *key, uint8_t *text, size_t len)
{
    for (size_t i = 0; i < len; i += BLOCK)
        cipher_cbc(QUICK, key, KEY, zero, BLOCK, text + i, BLOCK);
}

/* Sends a command with its C-MAC. */
static void send_signed(const char *name, uint8_t class, uint8_t code, uint8_t p1, uint8_t p2, const uint8_t *data, size_t len)
{
    uint8_t command[128] = { class, code, p1, p2, (uint8_t)(len + BLOCK) };

    memcpy(command + 5, data, len);
    sign(mac, command_mac, command, 5, data, len, command_mac);
    memcpy(command + 5 + len, command_mac, BLOCK);
    send(name, command, 5 + len + BLOCK);
}

/* The R-MAC that ends the response before its status word. */
static void check_response(void)
{
    uint8_t text[PURSE_RESPONSE] = { 0 };
    size_t len = response_len - 2 - BLOCK;

    memcpy(text, response, len);
    memcpy(text + len, "\x90\x00", 2);
    sign(mac, response_mac, command_mac, BLOCK, text, len + 2, response_mac);
    check(memcmp(response + len, response_mac, BLOCK) == 0, "the card's signature");
}

static void open_channel(uint8_t set)
{
    uint8_t command[5 + BLOCK] = { 0x80, 0x50, set, 0x00, BLOCK }, text[2 * BLOCK], cryptogram[BLOCK];

    memcpy(command + 5, host_challenge, BLOCK);
    send("INITIALIZE UPDATE", command, sizeof command);
    memcpy(text, card_challenge + 4, 4);
    memcpy(text + 4, host_challenge, 4);
    memcpy(text + 8, card_challenge, 4);
    memcpy(text + 12, host_challenge + 4, 4);
    memcpy(enc, text, KEY);
    memcpy(mac, text, KEY);
    encipher(keys[set], enc, KEY);
    encipher(keys[set] + KEY, mac, KEY);
    sign(enc, zero, host_challenge, BLOCK, card_challenge, BLOCK, cryptogram);
    check(memcmp(response + 20, cryptogram, BLOCK) == 0, "the card's cryptogram");
    sign(enc, zero, card_challenge, BLOCK, host_challenge, BLOCK, cryptogram);
    memset(command_mac, 0, BLOCK);
    memset(response_mac, 0, BLOCK);
    send_signed("EXTERNAL AUTHENTICATE", 0x84, 0x82, WITH_RMAC, 0x00, cryptogram, BLOCK);
}

static void install(void)
{
    uint8_t data[1 + sizeof aid + 2 + KEYS] = { sizeof aid };
    uint64_t result;

    memcpy(data + 1, aid, sizeof aid);
    data[1 + sizeof aid] = 10; /* log records */
    data[2 + sizeof aid] = 3;  /* PIN tries */
    memcpy(data + 3 + sizeof aid, keys[ADMIN], KEYS);
    result = purse_install(memory, sizeof memory, session, sizeof session, data, sizeof data, PURSE_NO_LIMIT);
    check(purse_answer(result) == PURSE_DONE, "installation");
    result = purse_start_up(memory, sizeof memory, session, sizeof session, PURSE_NO_LIMIT);
    check(purse_answer(result) == PURSE_DONE, "start-up");
}

static void select_purse(void)
{
    uint8_t command[5 + sizeof aid] = { 0x00, 0xA4, 0x04, 0x00, sizeof aid };

    memcpy(command + 5, aid, sizeof aid);
    send("SELECT", command, sizeof command);
}

static unsigned balance(void)
{
    const uint8_t command[] = { 0x80, 0xCA, 0x02, 0x15 };

    send("GET DATA", command, sizeof command);
    return response[1] * 256u + response[2];
}

static void personalize(void)
{
    /* identifier, currency, maximum balance 5,000, maximum debit 500, maximum transaction number 100 */
    static const uint8_t data[] = { 0x01, 4, 0, 1, 2, 3, 0x02, 2, 0x09, 0x78, 0x03, 2, 0x13, 0x88, 0x04, 2, 0x01, 0xF4, 0x05, 2, 0, 100 };

    open_channel(ADMIN);
    for (uint8_t set = DEBIT; set <= CREDIT; set++) {
        uint8_t wrapped[KEYS];

        memcpy(wrapped, keys[set], KEYS);
        encipher(keys[ADMIN] + 2 * KEY, wrapped, KEYS);
        send_signed("PUT KEY", 0x84, 0xD8, 0x00, set, wrapped, KEYS);
    }
    send_signed("STORE DATA", 0x84, 0xE2, 0x80, 0x00, data, sizeof data);
}

/* A debit or a cash credit, in a channel of its own. */
static void transact(uint8_t set, uint8_t kind, unsigned amount)
{
    const uint8_t asked[] = { 0x09, 0x78, (uint8_t)(amount / 256), (uint8_t)amount };
    static const uint8_t context[] = "shop 7, till 12.";

    open_channel(set);
    send_signed("INITIALIZE TRANSACTION", 0x94, 0x44, kind, 0x00, asked, sizeof asked);
    check_response();
    send_signed("COMPLETE TRANSACTION", 0x94, 0x46, 0x00, 0x00, context, 16);
    check_response();
}

int main(void)
{
    install();
    select_purse();
    printf("balance %u\n", balance());
    personalize();
    transact(CREDIT, 0x01, 1000);
    transact(DEBIT, 0x00, 350);
    printf("balance %u\n", balance());
    return 0;
}
