/* A deck's words as a person reads them. */
#ifndef WORDS_H
#define WORDS_H

#include "chuenphrao.h"
#include "deck.h"

/* A listing, one line for each word. Of three or more equal ones in a row only the first is shown. */
void show_words(const sections *deck);

/* The line of the word at an address in the listing that was shown last, this deck's. */
enum { LINE_ROOM = LISTING_MOST / WORDS_MOST };
void write_word(char line[LINE_ROOM], const sections *deck, unsigned address);

#endif
