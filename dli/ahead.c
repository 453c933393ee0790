/* Reading ahead: where a program makes the same GN or GNP again and again, the server foretells what the next ones will answer, and they are answered from here. The
   server then stands behind the program by the answers that were handed out. It makes those calls before the next frame of any kind, by a request in front of it. */
#include "dli.h"

#include <string.h>

/* The kinds of such frames: calls that are made and not answered, calls that are foretold, and what is told of them. */
enum { MAKE = 4, FORETELL = 5, TOLD = 7 };

/* How many answers the requests of a run bring, one behind the other, and further ones as many as the last. Where it is one, the request is the call itself: so a
   program without runs makes the requests that it makes anyway. */
static const unsigned char brings[] = {1, 1, 2, 4, 8, 16, 32, 63};

/* The run: its call, behind room for a length, a kind and how often; and the place of its next request above, 0 where no run is under way. */
static unsigned char request[MOST_MAKE];
static size_t call_length;
static size_t step;

/* What was foretold and not handed out, which stands where it was received; and how many answers were handed out and not made. */
static const unsigned char *told;
static size_t told_length;
static unsigned char handed;

void ahead_end(void)
{
    step = 0;
}

size_t ahead_make(unsigned char *into)
{
    size_t length = handed ? 4 + 2 + call_length : 0;

    if (handed) {
        memcpy(into, request, length);
        put_number(into, 4, (uint32_t)length - 4);
        into[4] = MAKE;
        into[5] = handed;
    }
    handed = 0;
    told_length = 0;
    ahead_end();
    return length;
}

/* The next answer of those that were foretold. */
static const unsigned char *hand_out(size_t *length)
{
    if (told_length < 4 || number_in(told, 4) > told_length - 4)
        refused(255);
    const unsigned char *answer = told + 4;
    *length = number_in(told, 4);
    told = answer + *length;
    told_length -= 4 + *length;
    handed++;
    return answer;
}

/* Has the server foretell so many answers of the run's call, and gives the first one; a refusal where that is what came, and NULL where none was told. */
static const unsigned char *foretell(unsigned char count, size_t *length)
{
    request[4] = FORETELL;
    request[5] = count;
    server_send(request, 2 + call_length);
    const unsigned char *body = server_receive(length);
    if (*length < 1 || body[0] != TOLD)
        return body;
    told = body + 1;
    told_length = *length - 1;
    return told_length ? hand_out(length) : NULL;
}

const unsigned char *ahead_answer(unsigned char *frame, size_t length, int is_read_ahead, size_t *answer_length)
{
    int is_same = length == call_length && !memcmp(frame + 4, request + 6, length);
    size_t place = is_same ? step : 0;

    if (place && told_length)
        return hand_out(answer_length);
    if (brings[place] > 1) {
        const unsigned char *answer = foretell(brings[place], answer_length);
        step = place + 1 < sizeof brings ? place + 1 : place;
        if (answer)
            return answer;
        /* none was told: the call is made, and begins a run */
        place = 0;
    }
    server_send(frame, length);
    if (is_read_ahead) {
        memcpy(request + 6, frame + 4, length);
        call_length = length;
        step = place + 1;
    }
    return server_receive(answer_length);
}
