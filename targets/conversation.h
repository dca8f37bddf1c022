// A panel's conversation with the library, for any processor: no C library is needed.
#ifndef CONVERSATION_H
#define CONVERSATION_H

// Prints a text. Whoever runs the conversation has it.
void put(const char *text);

// Asks from GET_VERSION to CHALLENGE and GET_MEASUREMENTS, finishes both, under 1.2 and then under 1.1, and prints all
// that is answered; the last lines, which begin with "stack", say how many bytes of stack each call took.
void converse(void);

#endif
