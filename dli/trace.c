/* What a program calls, written as a deck that `hd deck` plays; and what it is answered, in the lines that `hd deck` prints. */
#include "dli.h"

#include <stdio.h>
#include <stdlib.h>

/* The bytes of an area that one line of a deck has, and the most of an SSA. */
enum { PIECE = 100, LONGEST_SSA = 244 };

static FILE *deck, *answers;
static int last_pcb = 1;
static unsigned long calls;

static FILE *opened(const char *path)
{
    FILE *file = path ? fopen(path, "w") : NULL;
    if (path && !file) {
        perror(path);
        exit(16);
    }
    return file;
}

void trace_into(const char *deck_path, const char *answers_path)
{
    deck = opened(deck_path);
    answers = opened(answers_path);
}

static void trace_area(const unsigned char *area, size_t length)
{
    for (size_t place = 0; place < length; place++) {
        if (place % PIECE == 0)
            fputs(place ? "\nH" : "H", deck);
        fprintf(deck, "%02x", area[place]);
    }
    if (length)
        fputc('\n', deck);
}

void trace_call(int pcb, const char *function, int count, const struct text *ssas, const unsigned char *area, size_t length)
{
    calls++;
    if (answers)
        fprintf(answers, "%lu %d %.4s ", calls, pcb, function);
    if (!deck)
        return;
    if (pcb != last_pcb)
        fprintf(deck, "S %d\n", pcb);
    last_pcb = pcb;
    fprintf(deck, "L     %.4s\n", function);
    for (int place = 0; place < count; place++) {
        if (ssas[place].length > LONGEST_SSA)
            fputs("* the next argument is too long for a deck\n", deck);
        fputs("C          ", deck);
        fwrite(ssas[place].bytes, 1, ssas[place].length, deck);
        fputc('\n', deck);
    }
    trace_area(area, length);
}

static void show(const unsigned char *bytes, size_t length)
{
    for (size_t place = 0; place < length; place++) {
        unsigned char byte = bytes[place];
        if (byte == '\\')
            fputs("\\\\", answers);
        else if (byte < 32 || byte > 126)
            fprintf(answers, "\\x%02x", byte);
        else
            fputc(byte, answers);
    }
}

void trace_answer(const unsigned char *answer, size_t length)
{
    static const char *const refusals[] = {"", "Full", "Area", "Memory", "Device", "Broken"};

    if (!answers || length < 1)
        return;
    if (answer[0]) {
        fprintf(answers, "[!!] %s\n", answer[0] < 6 ? refusals[answer[0]] : "?");
        return;
    }
    size_t key = length < 14 ? 0 : number_in(answer + 12, 2);
    if (length < 14 + key)
        return;
    fprintf(answers, "[%.2s] %02d %.8s key=", answer + 1, answer[3], answer + 4);
    show(answer + 14, key);
    fputs(" area=", answers);
    show(answer + 14 + key, length - 14 - key);
    fputc('\n', answers);
}
