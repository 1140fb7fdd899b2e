#define _DEFAULT_SOURCE /* getrandom, TCP_QUICKACK */
#include "vpcd.h"

#include <arpa/inet.h>
#include <errno.h>
#include <netinet/in.h>
#include <netinet/tcp.h>
#include <poll.h>
#include <string.h>
#include <sys/random.h>
#include <sys/socket.h>
#include <unistd.h>

#include "card.h"
#include "port.h"
#include "say.h"

/* Messages of one byte from vpcd. Any other message is a command. */
enum { POWER_OFF = 0, POWER_ON = 1, RESET = 2, GET_ATR = 4 };

/* A message is two length bytes, high byte first, and a body. */
enum { HEAD_SIZE = 2, BODY_MAX = 0xFFFF };

enum { BEFORE_WORD = 3000, NO_END = -1 }; /* ms; vpcd speaks to a card that it has taken within a second */

/* The end of both answers to reset. */
#define HISTORY \
    0x80, /* historical bytes follow as compact TLV (ISO/IEC 7816-4) */ \
    0x71, 0x16, /* capabilities: selection by FID, short file numbers, record numbers */ \
    0x56, 'L', 'I', 'M', 'P', 'E', 'T' /* the issuer's own data, 6 bytes: a name that a person can recognise */

/*
 * The answer to reset (ISO/IEC 7816-3) of a card of mode 0. It speaks T=1 alone, which hands a command over whole and its data back
 * with the status word.
 */
static const uint8_t atr_t1[] = {
    0x3B, /* TS: direct convention */
    0x8A, /* T0: TD1 follows; 10 historical bytes */
    0x81, /* TD1: TD2 follows; the first protocol is T=1 */
    0x31, /* TD2: TA3 and TB3 follow, and are T=1's */
    0xFE, /* TA3: the card takes blocks of up to 254 bytes, the most there are */
    0x45, /* TB3: block waiting time 1.6 s (BWI 4), character waiting time 43 etu (CWI 5), the usual ones */
    HISTORY,
    0x39, /* TCK: makes the exclusive or of all bytes from T0 on 0 */
};

/* That of a card of mode 1. It speaks T=0 alone, in which data are fetched by a command of their own. T=0 alone has no TCK. */
static const uint8_t atr_t0[] = {
    0x3B, /* TS: direct convention */
    0x0A, /* T0: no TD1, which is T=0; 10 historical bytes */
    HISTORY,
};

int vpcd_connect(uint16_t port)
{
    struct sockaddr_in to = { .sin_family = AF_INET, .sin_port = htons(port) };
    int s = socket(AF_INET, SOCK_STREAM, 0);

    to.sin_addr.s_addr = htonl(INADDR_LOOPBACK);
    if (s < 0 || connect(s, (const struct sockaddr *)&to, sizeof to) != 0) {
        say("no virtual reader on 127.0.0.1 port %u: %s; is pcscd running, with the driver of vsmartcard-vpcd?",
            (unsigned)port, strerror(errno));
        if (s >= 0)
            close(s);
        return -1;
    }
    warn_of_open_port(port);
    return s;
}

/* Whether vpcd says something, or closes the connection, within that time. */
static bool comes(int s, int ms)
{
    struct pollfd from = { .fd = s, .events = POLLIN };
    int got;

    do
        got = poll(&from, 1, ms);
    while (got < 0 && errno == EINTR);
    return got != 0;
}

/* While another card is in the reader the system keeps the connection, and vpcd does not know of it. */
void vpcd_wait(int s, uint16_t port)
{
    bool soon = comes(s, BEFORE_WORD);
    uint8_t first;

    if (!soon) {
        say("vpcd has not taken the card yet: is another card in this reader? "
            "End its reader/run, or give this one another port with --port");
        comes(s, NO_END);
    }
    if (recv(s, &first, sizeof first, MSG_PEEK) > 0) /* none where it was closed */
        say("the card is in the reader %son port %u", soon ? "" : "now, ", (unsigned)port);
}

/*
 * Only for speed, so a failure does not matter. vpcd sends head and body apart, and the second waits until the first is
 * acknowledged, which Linux puts off for 40 ms. It forgets the wish after a while, so it is told each time.
 */
static void acknowledge_at_once(int s)
{
    int one = 1;
    setsockopt(s, IPPROTO_TCP, TCP_QUICKACK, &one, sizeof one);
}

/* Reads len bytes. Returns how many came before the other end closed, or -1. */
static ssize_t receive_all(int s, uint8_t *room, size_t len)
{
    size_t have = 0;
    while (have < len) {
        ssize_t got;
        acknowledge_at_once(s);
        got = recv(s, room + have, len - have, 0);
        if (got < 0 && errno == EINTR)
            continue;
        if (got < 0)
            return -1;
        if (got == 0)
            break;
        have += (size_t)got;
    }
    return (ssize_t)have;
}

/* One message. 1: it is there. 0: the other end closed before it. -1: the connection broke, which is said. */
static int receive(int s, uint8_t body[BODY_MAX], size_t *len)
{
    uint8_t head[HEAD_SIZE];
    ssize_t got = receive_all(s, head, sizeof head);

    if (got == 0)
        return 0;
    if (got == sizeof head) {
        *len = (size_t)head[0] << 8 | head[1];
        got = receive_all(s, body, *len);
        if (got >= 0 && (size_t)got == *len)
            return 1;
    }
    say("the connection to the virtual reader broke: %s", got < 0 ? strerror(errno) : "it ended within a message");
    return -1;
}

/* Head and body go out in one call, so that vpcd finds them together. */
static bool answer(int s, const uint8_t *body, size_t len)
{
    uint8_t message[HEAD_SIZE + LIMPET_REPLY_SIZE] = { (uint8_t)(len >> 8), (uint8_t)len };
    size_t all = HEAD_SIZE + len, sent = 0;

    memcpy(message + HEAD_SIZE, body, len);
    while (sent < all) {
        ssize_t went = send(s, message + sent, all - sent, MSG_NOSIGNAL);
        if (went < 0 && errno == EINTR)
            continue;
        if (went < 0) {
            say("the connection to the virtual reader broke: %s", strerror(errno));
            return false;
        }
        sent += (size_t)went;
    }
    return true;
}

static bool fresh(uint8_t random[LIMPET_RANDOM_SIZE])
{
    ssize_t got;
    do
        got = getrandom(random, LIMPET_RANDOM_SIZE, 0);
    while (got < 0 && errno == EINTR);
    if (got == LIMPET_RANDOM_SIZE)
        return true;
    say("no random bytes: %s", got < 0 ? strerror(errno) : "too few");
    return false;
}

enum served { SERVED, NOT_SERVED, NOT_KEPT };

/*
 * All is stored that may change what lasts or is shown a key or a PIN, a right one too, so that a right PIN and a wrong one meet
 * the same failures. A reset is not stored.
 */
static enum served keep(struct bytes command, struct store *kept)
{
    enum when when = card_only_reads(command) ? WHERE_CHANGED : ALWAYS;

    return kept == NULL || store_card(kept, WHAT_LASTS, when) == STORED ? SERVED : NOT_KEPT;
}

/* Gives the card the command, but not where it could not be kept. */
static enum served serve_command(struct bytes command, struct bytes random, uint8_t *reply, size_t *count, struct store *kept)
{
    uint8_t outcome;

    if (kept != NULL && !store_prepare(kept))
        return NOT_KEPT;
    outcome = card_command(command, random, reply, count);
    if (outcome == LIMPET_OK)
        return keep(command, kept);
    say("command not served, outcome %u: %s", (unsigned)outcome, outcome_says(outcome));
    if (kept != NULL)
        store_drop(kept);
    return NOT_SERVED;
}

/*
 * The card's answer to a command. 6F00 only where it could not be asked, which good buffers rule out, or not be kept. Then there is
 * no card any more: one that goes on without its file would count no tries.
 */
static enum served ask(struct bytes command, uint8_t reply[LIMPET_REPLY_SIZE], size_t *count, struct store *kept)
{
    uint8_t random[LIMPET_RANDOM_SIZE];
    enum served served = NOT_SERVED;

    if (fresh(random))
        served = serve_command(command, (struct bytes){ random, sizeof random }, reply, count, kept);
    if (served == SERVED)
        return SERVED;
    if (served == NOT_KEPT) {
        card_wipe();
        say("the card is out of the reader: no command is run on a card that cannot be stored");
    }
    reply[0] = 0x6F;
    reply[1] = 0x00;
    *count = 2;
    return served;
}

static void reset(const char *event)
{
    uint8_t outcome = card_reset();
    say_event(event);
    if (outcome != LIMPET_OK)
        say("reset not served, outcome %u: %s", (unsigned)outcome, outcome_says(outcome));
}

/* Serves one message. Whether the connection still stands, and the card is in the reader. */
static bool serve(int s, struct bytes message, struct store *kept)
{
    uint8_t reply[LIMPET_REPLY_SIZE];
    size_t count;
    enum served served;

    switch (message.len == 1 ? message.at[0] : -1) {
    case POWER_OFF:
        reset("power off");
        return true;
    case POWER_ON:
        reset("power on");
        return true;
    case RESET:
        reset("reset");
        return true;
    case GET_ATR:
        return card_mode() == 1 ? answer(s, atr_t0, sizeof atr_t0) : answer(s, atr_t1, sizeof atr_t1);
    default:
        served = ask(message, reply, &count, kept);
        say_exchange(message, (struct bytes){ reply, count });
        return answer(s, reply, count) && served != NOT_KEPT;
    }
}

bool vpcd_serve(int s, struct store *kept)
{
    static uint8_t body[BODY_MAX];
    size_t len;
    int got;

    while ((got = receive(s, body, &len)) == 1)
        if (!serve(s, (struct bytes){ body, len }, kept))
            break;
    wipe(body, sizeof body);
    return got == 0;
}
