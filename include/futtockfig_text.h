/* What each code means, as text for people. Beside futtockfig.h; no part of the archive. */
#ifndef FUTTOCKFIG_TEXT_H
#define FUTTOCKFIG_TEXT_H

#include "futtockfig.h"

/*
 * The meaning of a code, of a call or of a whole list; never NULL. There is no default, so that -Wall tells of a code
 * that has no text here.
 */
static inline const char *futtockfig_code_text(uint32_t code) {
    switch ((enum futtockfig_code)code) {
    case FUTTOCKFIG_OK: return "done";
    case FUTTOCKFIG_NO_SUCH_KIND: return "there is no such kind of call";
    case FUTTOCKFIG_BAD_NUMBER: return "a new number is 0 or above the capacity";
    case FUTTOCKFIG_NUMBER_IN_USE: return "that number is in use";
    case FUTTOCKFIG_NO_SUCH_VERTEX: return "there is no such vertex";
    case FUTTOCKFIG_NO_SUCH_EDGE: return "there is no such edge";
    case FUTTOCKFIG_NO_SUCH_TYPE: return "there is no such type or class";
    case FUTTOCKFIG_NOT_A_READING: return "kind and decimetres are no reading";
    case FUTTOCKFIG_OTHER_LIST: return "the two words are in the lists of different vertices";
    case FUTTOCKFIG_SAME_TWICE: return "both are the same";
    case FUTTOCKFIG_NO_ROOM: return "too few free changes are left";
    case FUTTOCKFIG_BAD_MARK: return "a mark is a number from 1 to 64";
    case FUTTOCKFIG_MARK_STANDS: return "the mark stands already";
    case FUTTOCKFIG_NO_SUCH_MARK: return "the mark does not stand";
    case FUTTOCKFIG_NO_STEP: return "there is nothing to undo or redo";
    case FUTTOCKFIG_BAD_SIDE: return "a side is 0, 1 or 2";
    case FUTTOCKFIG_NOTHING_HEARD: return "nothing heard on one of the ways, or on both";
    case FUTTOCKFIG_BAD_PRICE_LIST: return "a price list is 0, 1 or 2";
    case FUTTOCKFIG_BAD_NAME: return "the name is empty, or another standing mark has it";
    case FUTTOCKFIG_NO_SUCH_NAME: return "no standing mark has that name";
    case FUTTOCKFIG_BAD_BENCH: return "a bench is a number from 0 to 99";
    case FUTTOCKFIG_NO_SUCH_STORE: return "there is no such store";
    case FUTTOCKFIG_BAD_CALLS: return "the calls are no multiple of five words, with several stores of six";
    case FUTTOCKFIG_SHORT_ANSWERS: return "the answers have under two words a call";
    case FUTTOCKFIG_BAD_CAPACITY: return "a capacity, or the number of stores, is 0 or above its limit";
    case FUTTOCKFIG_BAD_ROWS: return "the type rows are not 1 to 64, or name a type that has no row";
    case FUTTOCKFIG_BAD_START: return "the header of the image is not sound, or it has more than there is room for";
    case FUTTOCKFIG_SHORT_IMAGE: return "the end image has too few words for the capacities";
    case FUTTOCKFIG_SHORT_PAGE: return "the page has under 25 bytes an edge";
    case FUTTOCKFIG_BAD_RECORD: return "a record of the image is bad";
    case FUTTOCKFIG_BAD_INCIDENCE: return "a list of the image is bad";
    case FUTTOCKFIG_BAD_SECOND: return "the second image is bad";
    case FUTTOCKFIG_OTHER_ITEMS: return "the wanted words are not the items that are there, each once";
    case FUTTOCKFIG_SHORT_LIST: return "the list has too few words for the calls of the order";
    case FUTTOCKFIG_SHORT_COPIES: return "there are more changes than room for copies";
    case FUTTOCKFIG_BAD_LIST: return "there are over 20,000 calls, or more words than the list to write to has";
    case FUTTOCKFIG_NO_FAILURE: return "there is no call, or the last one is accepted";
    }
    return "no code of this version";
}

#endif
