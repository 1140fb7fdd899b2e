#include "play.h"

#include <stdlib.h>
#include <string.h>

struct played *read_script(FILE *input, size_t *count)
{
    struct played *script = malloc(MOST_LINES * sizeof *script);

    if (script == NULL) {
        fprintf(stderr, "no memory for the script\n");
        exit(2);
    }
    for (*count = 0; *count < MOST_LINES && read_text(input, &script[*count].text); ++*count)
        read_line(&script[*count].text, &script[*count].line);
    return script;
}

/* A refused issue keeps the earlier card: so it is issued apart. */
static void issue(struct player *p, const struct line *l)
{
    uint8_t outcome = limpet_issue((struct limpet_card *)p->issued, p->area, sizeof p->area,
                                   l->key.at, l->key.len, l->device_limit,
                                   l->admin_pin.at, l->admin_pin.len, l->admin_limit,
                                   l->user_pin.at, l->user_pin.len, l->user_limit, l->mode,
                                   l->transport_key.at, l->transport_key.len, l->transport_limit);

    p->calls++;
    if (outcome == LIMPET_OK) {
        memcpy(p->card, p->issued, sizeof p->card);
        p->has_card = true;
    }
}

void play_line(struct player *p, const struct line *l)
{
    static uint8_t reply[LIMPET_REPLY_SIZE]; /* not on the stack, which tests/c/stack.c measures */
    static limpet_size count;

    if (l->wrong != NULL)
        return;
    if (l->kind == ISSUE_LINE) {
        issue(p, l);
    } else if (l->kind == CMD_LINE && p->has_card) {
        limpet_command((struct limpet_card *)p->card, p->area, sizeof p->area,
                       l->command.at, l->command.len, l->random.at, l->random.len,
                       reply, sizeof reply, &count);
        p->calls++;
    } else if (l->kind == RESET_LINE && p->has_card) {
        limpet_reset((struct limpet_card *)p->card, p->area, sizeof p->area);
        p->calls++;
    }
}
