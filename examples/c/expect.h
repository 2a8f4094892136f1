/* The counts of the tests: answers, and wrong answers. */
#ifndef EXPECT_H
#define EXPECT_H

#include <stdbool.h>
#include <stdio.h>

static unsigned long answers, faults;

static void expect_that(bool holds, const char *what)
{
    answers++;
    if (holds)
        return;
    faults++;
    printf("%s: does not hold\n", what);
}

#endif
