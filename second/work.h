/*
 * Inside the model: a step under way, and the parts it is made of. Only the
 * model's own files include this.
 */
#ifndef WORK_H
#define WORK_H

#include "model.h"

/* The tables that the step changes in place, and the two masks that its
   result collects. Woken is about events, not the end state: a thread made
   ready and asleep again within the step would keep its bit. Whoever is woken
   is woken by the call at work: the step's own, and while settling the one that
   is continued. Whoever asks is told the finished calls; nothing here reads
   them. */
struct work {
    struct tables *t;
    uint32_t woken;
    uint32_t finished;
    uint32_t at_work; /* the kind of that call */
    struct finished_calls *told; /* NULL: nobody asks */
};

/* waits.c: threads are made ready, finish their calls, and go to sleep. */
int32_t as_message(uint32_t a);
void make_ready(struct work *w, uint32_t i, int32_t message);
void finish(struct work *w, uint32_t i, struct answer answer);
void tell(struct work *w, struct finished_call c);
void add_to(int32_t *counter, int by);
void release_first(struct work *w, struct place at, int32_t message);
void release_all(struct work *w, struct place at, int32_t message);
/* Whether it counted. */
bool signal_at(struct work *w, struct place at);
void time_out(struct work *w, uint32_t i);
void put_to_sleep(struct work *w, uint32_t i, struct call c);

/* calls.c: the kinds that may have to wait. */
bool may_sleep(uint32_t kind);
/* True with an answer, or false with the caller asleep. */
bool make_call(struct work *w, const struct step *s, struct answer *out);
/* Goes on with the unfinished call of a thread that has come to run. */
void continue_call(struct work *w, uint32_t i);

/* acts.c: the kinds that never wait. Returns the message that they answer;
   their datum is 0. */
int32_t act(struct work *w, const struct step *s);

#endif
