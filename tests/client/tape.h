/* The tape of a client, and what it does with a call's number and with the words that the call read. */
#ifndef TAPE_H
#define TAPE_H

#include <stddef.h>
#include <stdint.h>

/* The tape: words that were drawn and that no call has read. */
extern uint32_t tape[];
extern size_t waiting;
extern unsigned long words_drawn, words_read;

/* Stops the program where a call was refused. */
void accepted(const char *call, size_t number);

/* Puts fresh words behind those that wait. These stay: the call that they did not suffice for has to read them again. */
void extend_tape(void);

/* Drops the words that an accepted call has read, so that none is used again. */
void drop_words(size_t number);

#endif
