/* What a call takes: the most bytes of stack that it used, and its instructions, which are 0 where nothing counts them. */
#ifndef TAKEN_H
#define TAKEN_H

struct taken {
    unsigned long stack;
    unsigned long instructions;
};

struct taken taken_by(void (*call)(void));

#endif
