/*
 * A byte pipe to a label printer. The packer writes labels of 11 bytes into a
 * buffer of 16, each as far as there is room, and its rest later; the printer
 * takes 7 bytes at a time. So labels come in pieces, some of them across the
 * buffer's end. A transfer never waits and wakes nobody: when to try again is
 * the host's to say, here by turns. At a paper jam the pipe is reset: what is
 * in it is lost, and transfers answer NIL_RESET until it is resumed.
 */
#include "nil.h"

#include <stdio.h>
#include <string.h>

enum { PRINTER, PIPES };
enum { ROOM = 16, LABEL = 11, PIECE = 7 };

static const char labels[] = "Milk  1.5 L" "Cream 0.2 L" "Whey  5.0 L"
                             "Curd  400 g" "Ghee  250 g";

/* The pipe's record, and its buffer: with the same bytes and the same length it
   is lent to each call of this pipe, and to no other pipe's. */
static nil_pipes pipes;
static uint8_t buffer[ROOM];

static size_t written; /* bytes of the labels that went into the pipe */
static char paper[sizeof labels];
static size_t printed;

static void say(const char *what, unsigned bytes, uint8_t code, int32_t moved)
{
    const nil_pipe *p = &pipes.pipes[PRINTER];

    printf("%s %2u: code %u, moved %2d; read %2u, write %2u, %2u in it", what,
           bytes, (unsigned)code, (int)moved, (unsigned)p->read,
           (unsigned)p->write, (unsigned)p->count);
}

/* The packer offers what is left of its label. */
static void feed(void)
{
    size_t rest = LABEL - written % LABEL;
    int32_t moved;
    uint8_t code = nil_pipe_write(&pipes, PRINTER, buffer, ROOM,
                                  (const uint8_t *)labels + written, rest,
                                  &moved);

    say("feed ", (unsigned)rest, code, moved);
    printf("\n");
    written += moved > 0 ? (size_t)moved : 0;
}

static void print(void)
{
    char piece[PIECE];
    int32_t moved;
    uint8_t code = nil_pipe_read(&pipes, PRINTER, buffer, ROOM,
                                 (uint8_t *)piece, PIECE, &moved);

    say("print", PIECE, code, moved);
    if (moved > 0) {
        printf("  \"%.*s\"", (int)moved, piece);
        memcpy(&paper[printed], piece, (size_t)moved);
        printed += (size_t)moved;
    }
    printf("\n");
}

/* Returns the bytes that were lost. */
static size_t jam(void)
{
    size_t lost = pipes.pipes[PRINTER].count;

    printf("paper jam: code %u\n",
           (unsigned)nil_pipe_reset(&pipes, PRINTER, ROOM));
    print();
    feed();
    printf("cleared: code %u\n",
           (unsigned)nil_pipe_resume(&pipes, PRINTER, ROOM));
    return lost;
}

/* A record that does not fit its buffer is refused by every call, reset too:
   the host sets the pipes up anew. */
static void damage(void)
{
    pipes.pipes[PRINTER].count = ROOM + 1;
    print();
    printf("reset: code %u\n",
           (unsigned)nil_pipe_reset(&pipes, PRINTER, ROOM));
    printf("fresh: code %u\n", (unsigned)nil_pipe_fresh(&pipes, PIPES));
    print();
}

int main(void)
{
    size_t before, lost;

    if (!NIL_LAYOUT_FITS() || nil_pipe_fresh(&pipes, PIPES) != 0) {
        return 1;
    }
    for (unsigned turn = 0; turn < 4; turn++) {
        feed();
        print();
    }
    feed();
    before = printed;
    lost = jam();
    feed();
    print();
    print();
    printf("printed %u bytes, lost %u, printed %u: %s\n", (unsigned)before,
           (unsigned)lost, (unsigned)(printed - before),
           memcmp(paper, labels, before) == 0
           && memcmp(paper + before, labels + before + lost,
                     printed - before) == 0
               ? "as they were written" : "NOT as they were written");
    damage();
    /* what was printed may not have arrived */
    return fflush(stdout) == 0 ? 0 : 1;
}
