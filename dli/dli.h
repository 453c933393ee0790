/* What the files of the calling side share: the server, the database that it told of, and a call. */
#ifndef DLI_H
#define DLI_H

#include <stddef.h>
#include <stdint.h>

/* The longest frame that either side sends, and the most SSAs and types that a call has. */
enum { MOST_FRAME = 1 << 20, MOST_SSAS = 15, MOST_LEVELS = 15, MOST_PCBS = 255 };

/* The longest frame that makes calls which were handed out: its length, kind, how often, and a call with one SSA. */
enum { MOST_MAKE = 4 + 2 + 7 + 2 + 65535 };

/* server.c: `hd serve` on two pipes. */

/* Ends the program as an abend does: says why, has the server go back to the last commit, and exits with 16. */
_Noreturn void abend(const char *format, ...) __attribute__((format(printf, 1, 2)));

/* Starts the server over its words, of which the last is NULL, and gives its first frame; the program's exit status where it ended before that. */
int server_start(char *const words[], unsigned char **hello, size_t *length);

/* Sends a frame: room for its length, and then so many bytes. The calls that were handed out and not made go in front of it, in the same write. */
void server_send(unsigned char *frame, size_t length);

/* The next frame from the server, which stands until the next one is asked for. */
const unsigned char *server_receive(size_t *length);

/* Asks for a commit or a roll back, and gives what is answered: DONE, or the number of a refusal. */
enum { COMMIT = 2, ROLL_BACK = 3, DONE = 6 };
unsigned server_request(unsigned kind);

/* Closes the server's input, waits for its end, and gives its exit status; 0 where there is none. */
int server_end(void);

/* The number in some bytes, the greatest first; and puts one into them. */
uint32_t number_in(const unsigned char *bytes, int count);
void put_number(unsigned char *bytes, int count, uint32_t number);

/* ahead.c: the same GN or GNP again and again, whose answers the server foretells. */

/* The answer of a call, which stands until the next call: of those that were foretold, or else the server's. The call is a frame, room for its length and then so many
   bytes; one that is read ahead has one SSA at most. */
const unsigned char *ahead_answer(unsigned char *frame, size_t length, int is_read_ahead, size_t *answer_length);

/* Ends a run, behind an answer without a segment. */
void ahead_end(void);

/* Puts the frame that makes the calls which were handed out, and gives its bytes, none where there are no such calls. Another frame follows, and ends the run:
   what was foretold and not handed out is dropped. */
size_t ahead_make(unsigned char *into);

/* database.c: segment types, and PCB masks as IMS lays them out. */

struct field {
    char name[8];
    unsigned length;
};

struct type {
    char name[8];
    unsigned level, is_variable, most, fields;
    struct field *field;
};

/* A PCB mask: what the program reads after each call. Its numbers are as COBOL has them, or as the machine has. */
struct mask {
    char database[8], level[2], status[2], procopt[4];
    uint32_t reserved;
    char segment[8];
    uint32_t key_length, sensitive;
    char key[];
};

/* A PCB: its mask, the longest key, and the types of the segments that a get with hold gave last. */
struct pcb {
    struct mask *mask;
    unsigned longest_key;
    int is_big_endian;
    int held;
    const struct type *held_types[MOST_LEVELS];
};

/* Takes the first frame of the server apart. */
void database_read(const unsigned char *hello, size_t length);
int database_pcbs(void);

/* The mask of a PCB, from 1, with its numbers the greatest byte first, or in the machine's order. */
struct mask *database_mask(int number, int is_big_endian);

/* The PCB whose mask this is, or NULL; and its number, from 1. */
struct pcb *pcb_of(const void *mask);
int pcb_number(const struct pcb *pcb);
void mask_number(const struct pcb *pcb, uint32_t *place, uint32_t number);

/* The type of a name of eight letters, or NULL. */
const struct type *type_named(const char *name);
const struct field *field_named(const struct type *type, const char *name);

/* io_pcb.c: the I/O PCB of a batch program, by which it commits and takes back. */
void *io_pcb(void);
int is_io_pcb(const void *mask);
void io_call(int count, void **at);

/* Forgets what the PCBs hold. */
void database_release(void);

/* trace.c: calls as a deck, and answers as the lines of `hd deck`, into files; NULL for none. */
struct text {
    const char *bytes;
    size_t length;
};

void trace_into(const char *deck_path, const char *answers_path);
void trace_call(int pcb, const char *function, int count, const struct text *ssas, const unsigned char *area, size_t length);
void trace_answer(const unsigned char *answer, size_t length);

/* Makes last what the program has changed so far; positions stay. Ends the program where that can't be done. */
void commit(void);

/* Ends the program where the server can't answer, by the number of its refusal. */
_Noreturn void refused(unsigned outcome);

/* call.c: a call of a program. at[0] is the function, at[1] the PCB, at[2] the I/O area, and then come SSAs. */
void dli_call(int count, void **at);

#endif
