/* Opens a desk, writes a sentence, shows it, undoes, and prints the refusal of a bad call.
 *
 *   (cd crates/capi && rt lib)
 *   mkdir -p target && cc -O2 -Iinclude examples/office.c crates/capi/out/libcapi.a -o target/office
 *   target/office
 */
#include <stdio.h>
#include <stdlib.h>
#include <string.h>

#include "desk.h"

enum { MAX_CELLS = 2048, MAX_CHANGES = 128, MAX_UNDOS = 2048 };

typedef struct {
    uint32_t *words[3];
    size_t len[3];
    uint8_t answer[DESK_ANSWER_BYTES];
} desk;

static uint8_t *put_number(uint8_t *to, uint32_t n)
{
    for (int i = 0; i < 4; i++)
        *to++ = (uint8_t)(n >> (8 * i));
    return to;
}

static uint32_t number_at(const uint8_t *from)
{
    return from[0] | (uint32_t)from[1] << 8 | (uint32_t)from[2] << 16 | (uint32_t)from[3] << 24;
}

static int open_desk(desk *d)
{
    for (uint32_t which = DESK_CELLS; which <= DESK_UNDO; which++) {
        int64_t words = desk_words(which, MAX_CELLS, MAX_CHANGES, MAX_UNDOS);
        if (words < 0)
            return 0;
        d->len[which] = (size_t)words;
        d->words[which] = calloc(d->len[which], sizeof(uint32_t));
        if (d->words[which] == NULL)
            return 0;
    }
    return desk_open(d->words[0], d->len[0], d->words[1], d->len[1], d->words[2], d->len[2], MAX_CELLS, MAX_CHANGES, MAX_UNDOS) == 0;
}

/* Does the call and prints its answer. Of a row only the letters. */
static void tell(desk *d, const char *what, const uint8_t *call, size_t call_len)
{
    int64_t len = desk_call(d->words[0], d->len[0], d->words[1], d->len[1], d->words[2], d->len[2], call, call_len, d->answer, sizeof d->answer);
    printf("%s: ", what);
    if (len < 0) {
        printf("an array is too short\n");
        return;
    }
    const uint8_t *at = d->answer + 1;
    switch (d->answer[0]) {
    case 0:
        printf("refused %u at %u\n", number_at(at), number_at(at + 4));
        break;
    case 1:
        printf("%u\n", number_at(at));
        break;
    case 3:
        for (uint32_t rows = number_at(at); rows > 0; rows--) {
            uint32_t cells = number_at(at += 4);
            putchar('|');
            for (; cells > 0; cells--, at += 16)
                putchar((int)number_at(at + 4));
        }
        printf("|\n");
        break;
    default:
        printf("an answer of %lld bytes\n", (long long)len);
    }
}

static size_t put(uint8_t *call, uint32_t author, uint32_t place, uint32_t style, const char *letters)
{
    uint8_t *end = call;
    *end++ = 0;
    end = put_number(end, author);
    end = put_number(end, place);
    end = put_number(end, style);
    end = put_number(end, (uint32_t)strlen(letters));
    memcpy(end, letters, strlen(letters));
    return (size_t)(end - call) + strlen(letters);
}

static size_t show(uint8_t *call, uint32_t way, uint32_t width, uint32_t first, uint32_t rows)
{
    uint8_t *end = call;
    *end++ = 7;
    end = put_number(end, way);
    end = put_number(end, width);
    end = put_number(end, first);
    end = put_number(end, rows);
    return (size_t)(end - call);
}

int main(void)
{
    static desk d;
    uint8_t call[64];
    if (!open_desk(&d)) {
        printf("the desk cannot be opened\n");
        return 1;
    }
    tell(&d, "put by author 1", call, put(call, 1, 0, 0, "the cat sat"));
    tell(&d, "put by author 2", call, put(call, 2, 4, 0, "old "));
    tell(&d, "rows of 64", call, show(call, 0, 64, 0, 1));
    tell(&d, "rows of 6", call, show(call, 0, 6, 0, 4));
    call[0] = 5;
    tell(&d, "undo, of so many calls", call, 1);
    tell(&d, "rows of 64", call, show(call, 0, 64, 0, 1));
    tell(&d, "a row that is not there", call, show(call, 0, 64, 1, 1));
    tell(&d, "a put past the end", call, put(call, 1, 99, 0, "!"));
    tell(&d, "half a call", call, 7);
    for (int which = 0; which < 3; which++)
        free(d.words[which]);
    return 0;
}
