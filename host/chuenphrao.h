/* The engine's interface: it runs a deck of MCP-1600 microcode, one attempt for each line sample, alone or with a
   memory on the bus. The assembler and the lister, which turn a typed listing into words and words into a listing,
   come after it, and the check of the service profile is at the end.

   A DECK is at most 65,536 bytes: four sections in this order, each after its count of two bytes.
   All numbers have their low byte first. An unused bit that is set makes its item out of range.

     words     0 to 2,048, 4 bytes each: bits 15-0 the instruction, 16 loads RR, 17 RNI,
               18-21 the user's outputs
     rows      0 to 128, 16 bytes each, see below
     state     always 1, STATE_BYTES bytes, see below
     samples   0 to 65,535, 4 bytes each, see below

   A ROW. A value may have no bit outside its mask.

     0-1 LC mask             2-3 LC value          4 RNI mask (bit 0)     5 RNI value
     6 TR byte mask          7 TR byte value       8 TSR mask (bits 1-0)  9 TSR value
     10 interrupt mask (bit i is Ii, I0-I6)        11 interrupt value
     12-13 address           14 lines: bit 0 LTA, 1 LRA, 2 LTSR           15 new TSR

   THE STATE, in the deck and in the state buffer.

     0-11 G0-GB        12-25 R2-RF         26 G (0-7)
     27 flags, bit 7 to bit 0: N Z V C NB ZB C4 C8
     28-29 LC          30-31 RR (both 0-2047)
     32-33 TR          34-35 M             36 TSR (0-7)
     37 marks: bit 0 ICS, 1 SYNC, 2 IACK, 3 a modification is waiting
     38 I4-I6 in bits 0-2                  39-40 the modification, zero without its mark
     41 the user's outputs (0-15): bits 18-21 of the last executed word, bit 18 in bit 0

   A SAMPLE. Every attempt uses up one.

     0-1 DAL data      2 lines: bit 0 REPLY, 1 BUSY, 2 COMPUTE, 3 RESET, 4 ICS
     3 I0-I3 in bits 0-3 */
#ifndef CHUENPHRAO_H
#define CHUENPHRAO_H

#include <stddef.h>
#include <stdint.h>

enum { DECK_MOST = 65536, WORD_BYTES = 4, ROW_BYTES = 16, STATE_BYTES = 42, SAMPLE_BYTES = 4, REQUEST_BYTES = 4 };

/* The control chip's marking, which a run names: CP1661B is the base, CP1621B has Q1. An IB or IW with b 4-7 asks
   for a read-modify-write, which keeps SYNC and IACK. With CP1621B it is one only if Q1 is false, read from TR
   before the instruction. Q1 is (not TR14 and TR13) or (not TR14, not TR12, TR11, not TR10, TR9, TR8, TR7 and TR6
   together). */
enum { MARKING_CP1661B = 1661, MARKING_CP1621B = 1621 };

/* The answers. Of several that apply the first in this order is given: 9, 24, 1, 2, 3, 4, 16, then at each
   attempt 5, 6, 8, and 17 in the place of a wait. An attempt with RESET high or COMPUTE low is never refused.
   16 and 17 are given by run_with_memory alone. */
enum {
    ANSWER_DONE = 0,    /* all samples used */
    ANSWER_STATE = 1,   /* state out of range */
    ANSWER_WORDS = 2,   /* over 2,048 words, or a word of 2^22 or more */
    ANSWER_ROWS = 3,    /* over 128 rows, or a row out of range */
    ANSWER_SAMPLES = 4, /* over 65,535 samples, a sample out of range, or the request buffer shorter
                           than the samples */
    ANSWER_NO_WORD = 5, /* LC has no word */
    ANSWER_CODE = 6,    /* code unlisted, or AC */
    ANSWER_PAIR = 7,    /* reserved, no longer given: it was odd designator where a pair is
                           needed */
    ANSWER_OPTION = 8,  /* option not listed */
    ANSWER_DECK = 9,    /* deck over 65,536 bytes, state count not 1, length other than its counts say,
                           or the state buffer not STATE_BYTES bytes */
    ANSWER_MEMORY = 16, /* memory length odd or over 65,536, or delay over 15 */
    ANSWER_NO_REPLY = 17, /* a 33rd IB, IW, OB or OW wait in a row, the kept address beyond the memory */
    ANSWER_MARKING = 24, /* unknown marking */
};

/* A request is its kind times 65,536 plus a value of 16 bits. */
enum {
    KIND_NONE = 0,
    KIND_READ = 1,        /* 1-4: the value is Rb:Ra before any change, Rb the high byte */
    KIND_WRITE = 2,
    KIND_READ_ACKNOWLEDGE = 3,
    KIND_WRITE_ACKNOWLEDGE = 4,
    KIND_DATA_IN = 5,     /* the sample's data; with a memory on the bus, its word */
    KIND_WORD_OUT = 6,    /* 6-8: Rb:Ra */
    KIND_BYTE_OUT = 7,
    KIND_STATUS_OUT = 8,
    KIND_STATUS_IN = 9,   /* the sample's data */
    KIND_WAIT = 10,       /* the same word is attempted again; 0 and 10-12 have value 0 */
    KIND_RESET = 11,
    KIND_COMPUTE_LOW = 12,
    KINDS = 13
};

typedef struct {
    uint32_t answer;      /* as above */
    uint32_t attempts;    /* attempts made, a refused one not among them */
    uint32_t microcycles; /* what they cost */
} report;

/* Runs a deck: one attempt for each sample until all are used or one is refused.

   deck      is only read.
   requests  has a place of four bytes for each sample; attempt i writes its request to place i,
             counted from 0, low byte first. It may be longer: what lies past the samples' places
             is never touched.
   state     STATE_BYTES bytes.
   marking   of the control chip, one of the two above.

   No two of the buffers may overlap. A buffer of length 0 still needs a pointer that is not null.

     answer    attempts and          state holds             requests holds
               microcycles
     0         those of all samples  the state after them    a request for each sample
     5, 6, 8   those before the      the state before the    a request for each attempt made;
               refused attempt       refused attempt         the other places are as found
     1-4, 9    0 and 0               what it held before     what it held before
     24        0 and 0               what it held before     what it held before

   Samples may be handed in part by part: decks with the same words and rows, in each the state that the one before
   handed back and the samples that come next, the same marking, and the rest of the request buffer. State,
   requests, last answer and summed counts are then those of one run of all samples, if that would not have been
   refused by 9, 24 or 1-4. A part that is refused by 5, 6 or 8 ends it, at the attempt that would have ended the
   one run. */
report run(const uint8_t *deck, size_t deck_len, uint8_t *requests, size_t requests_len,
           uint8_t *state, size_t state_len, uint32_t marking);

/* A MEMORY ON THE BUS: up to 65,536 bytes, the byte of address i at place i. A word's low byte is at the even
   address; who reads or writes one ignores the lowest bit of its address.

   It keeps the address of the last read or write that was accepted (requests of kinds 1-4, acknowledges too). A run
   starts with none kept, whatever SYNC is in its state; RESET drops SYNC and keeps the address.

     REPLY     is the memory's: high exactly if SYNC is high before the attempt, an address is kept, it is below the
               memory's length, and the delay is over. With delay d, 0 to 15, the d attempts after the accepting one
               see REPLY low, whatever they are; a later access starts the delay anew. So REPLY stays high, and no
               other read or write is accepted, until IB or IW without RMW, OB, OW or RESET drops SYNC.
     IB, IW    see the whole word at the kept address; it is the value of their request. IB chooses its byte as ever.
     ISB, ISW  see the external data.
     OW        stores Ra at the even address and Rb at the odd one.
     OB        stores Ra, the lower lines, at an even kept address, and Rb, the upper ones, at an odd one.

   Beyond the memory nothing replies. There 32 waits of IB, IW, OB and OW in a row are made, and a 33rd is refused
   by 17. Any other attempt between them, RESET and COMPUTE low too, starts their count anew. With no address kept,
   or with one below the length, waits go on without a 17. */
enum { MEMORY_MOST = 65536, DELAY_MOST = 15 };

/* Runs a deck with a memory on the bus. Its samples are the external lines: their REPLY is not used, their data are
   seen by ISB and ISW alone, and all others are as in `run`.

   memory    the bytes that the run starts with, and those that it leaves. Its length is even, MEMORY_MOST at most;
             it may be 0.
   delay     DELAY_MOST at most.
   deck, requests, state and marking as for `run`. No two of the four buffers may overlap, and none may be null.

     answer        attempts and          state holds            requests holds         memory holds
                   microcycles
     0             those of all samples  the state after them   a request for each     what the attempts
                                                                sample                 left
     5, 6, 8, 17   those before the      the state before the   a request for each     what the attempts
                   refused attempt       refused attempt        attempt made; the      made left
                                                                others are as found
     1-4, 9, 16    0 and 0               what it held before    what it held before    what it held before
     24            0 and 0               what it held before    what it held before    what it held before

   A byte of the memory is what the last completed OB or OW to it stored, or as it was. Samples cannot be handed in
   part by part: the memory keeps more between two attempts than a state holds. But a run over the first samples of
   a deck does what the run over all of them does in its first attempts. */
report run_with_memory(const uint8_t *deck, size_t deck_len, uint8_t *memory, size_t memory_len, uint32_t delay,
                       uint8_t *requests, size_t requests_len, uint8_t *state, size_t state_len, uint32_t marking);

/* A LISTING is a text of lines. Each has an address, a mnemonic, its operands in hexadecimal and its marks,
   split by spaces, and ends with a newline, which the last may lack: "003 CW 4 2 ODD RR U5". Tabs, carriage
   returns and comments are none of it. docs/LISTING.md has the format and the mnemonics.

   WORDS are four bytes each as in a deck, without a count. */
enum {
    WORDS_MOST = 2048,
    LISTING_MOST = 81920, /* bytes; no listing that list_words writes is longer */
};

/* The answers besides 0. */
enum {
    LISTING_WORDS = 2,     /* over 2,048 words, a word of 2^22 or more, or a length that is no multiple of 4 */
    LISTING_CODE = 6,      /* code unlisted; AC is listed here */
    LISTING_MNEMONIC = 10, /* unknown or absent mnemonic */
    LISTING_OPERAND = 11,  /* operand or mark missing, extra or out of range */
    LISTING_ADDRESS = 12,  /* address not hexadecimal, not rising or over 2,047 */
    LISTING_ROOM = 27,     /* output too short */
};

typedef struct {
    uint32_t answer;
    uint32_t at;     /* with 10-12 the line, counted from 1; with 2 and 6 the word's address; else 0 */
    uint32_t length; /* with 0 the bytes written, with 27 the bytes needed; else 0 */
} listing_report;

/* assemble    Writes the words from address 0 to the last line's; those that no line gives are NOP, FF00. The
               first bad line is refused, with the first of 10, 11 and 12 that is true of it; then comes 27.
   list_words  Writes a line for each word, in the fixed spelling. Refusals in this order: 2, at the first
               word of 2^22 or more, or at 2,048 for the other two causes; 6, at the first unlisted word; 27.

   Any answer but 0 leaves the output as found, and so does an output longer than needed past its end. Input
   and output may not overlap. A buffer of length 0 still needs a pointer that is not null. */
listing_report assemble(const uint8_t *text, size_t text_len, uint8_t *words, size_t words_len);
listing_report list_words(const uint8_t *words, size_t words_len, uint8_t *text, size_t text_len);

/* THE SERVICE PROFILE for plants' microcode, four rules in this order:

     1   no MI
     2   RR loaded (bit 16) only by JMP or a conditional jump
     3   no word at address 0 but NOP or JMP
     4   no unlisted code and no CAD anywhere

   profile  Only reads the words. 2 comes as from list_words, with its address; then 25 with the first offending
            address and the first rule broken there; else 0. A run of accepted words that starts without a
            waiting modification is never refused by 6, with either marking. docs/PROFILE.md says why.

   A buffer of length 0 still needs a pointer that is not null. */
enum { PROFILE_BROKEN = 25 };

typedef struct {
    uint32_t answer;
    uint32_t address; /* with 2 and 25, else 0 */
    uint32_t rule;    /* with 25: 1-4, else 0 */
} profile_report;

profile_report profile(const uint8_t *words, size_t words_len);

#endif
