// The conversation on Linux.
#include "conversation.h"

#include <stdio.h>

void put(const char *text)
{
    fputs(text, stdout);
}

int main(void)
{
    converse();
    return 0;
}
