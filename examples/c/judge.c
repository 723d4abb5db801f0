/* Judges the deck on standard input; the exit status is 0 for accepted, 1 for differs, 2 for the rest.
 * From the root of the repository, after `make`:
 *     gcc -O2 -Iinclude examples/c/judge.c target/staticlib/libtteuyomal.a -o target/judge-c
 *     target/judge-c < DECK
 */
#include <stdio.h>
#include "tteuyomal.h"

int main(void)
{
    static uint8_t deck[32768 + 1]; /* one more than a deck may have: a longer one is refused, not cut */
    size_t length = fread(deck, 1, sizeof deck, stdin);
    if (ferror(stdin))
        return perror("judge"), 2;
    tteuyomal_reply reply = tteuyomal_judge(deck, length);
    unsigned long long where = tteuyomal_where(reply);
    int status = 0;
    if (tteuyomal_is_refusal(reply))
        status = 2, printf("refused %u at %llu\n", tteuyomal_what(reply), where);
    else if (tteuyomal_what(reply) == TTEUYOMAL_DIFFERS)
        status = 1, printf("differs %llu\n", where);
    else
        printf("accepted\n");
    return fflush(stdout) == 0 ? status : 2;
}
