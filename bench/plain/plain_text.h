/* What the judge program and the trial program print. */
#ifndef PLAIN_TEXT_H
#define PLAIN_TEXT_H

#include "plain_form.h"

/*
 * Enough for either text: a judge's line (under 600 bytes), 8,192 step lines
 * of at most 9 bytes and a race line.
 */
enum { TEXT_ROOM = 75000, SCHEDULE_MOST = 8192, DEFAULT_LIMIT = 1000 };

/* Both write into TEXT_ROOM bytes and give the length of the text. */
size_t plain_judge_text(const uint8_t *input, size_t n, char *text);
size_t plain_trial_text(const uint8_t *input, size_t n, char *text);

#endif
