/* How far a long trace is, for a person at a terminal who does not see it pass because it goes elsewhere. */
#ifndef PROGRESS_H
#define PROGRESS_H

/* Called for each attempt; a line on standard error is written over now and then. */
void show_progress(unsigned attempt, unsigned last);

void clear_progress(void);

#endif
