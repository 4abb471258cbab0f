/* Two copies of a table, one writer, two readers: the protocol of board.rt, reader.rt and writer.rt of crates/lookup_calls,
 * in every order of its steps. trials/readers runs it.
 *
 * Errors that -D plants: SKIP_CLEAR, a writer that takes no pages out; FREE_WHILE_READ, one that takes them from
 * readers; NO_CLAIM, a reader that claims nothing; NO_SECOND_LOOK, one that does not look again which copy is shown.
 * FLIP_FIRST shows a copy before its pages are in, which is harmless: readers then try again.
 */
#ifndef READERS
#define READERS 2
#endif
#ifndef PUBLISH
#define PUBLISH 3
#endif
#ifndef BURSTS
#define BURSTS 2
#endif
#define FREE 0
#define PRESENT 1
#define TAKEN 3
#define IN 5

byte word[4];      /* of reader r and side s: 2 r + s */
byte page[4];      /* the generation in that place, 255 without a page */
byte shown;
byte copy[2];      /* the generation that each copy has */
bool torn[2];      /* the writer is in the middle of a change of it */
byte published;    /* what the writer has told of */

inline clear(r, s, ok) {
    atomic {
        if
        :: word[2*r+s] == PRESENT -> word[2*r+s] = TAKEN; got = 1
        :: word[2*r+s] == FREE -> got = 2
#ifdef FREE_WHILE_READ
        :: word[2*r+s] == IN -> word[2*r+s] = TAKEN; got = 1
#endif
        :: else -> got = 0
        fi
    }
    if
    :: got == 1 -> page[2*r+s] = 255; word[2*r+s] = FREE
    :: got == 2 -> skip
    :: else -> ok = false
    fi
}

inline fill(r, s, g) {
    atomic { assert(word[2*r+s] == FREE); word[2*r+s] = TAKEN }
    page[2*r+s] = g;
    word[2*r+s] = PRESENT
}

proctype writer() {
    byte g = 0, r, got, off;
    bool ok;
    do
    :: g < PUBLISH ->
again:
        off = 1 - shown;
        ok = true;
#ifndef SKIP_CLEAR
        r = 0;
        do
        :: r < READERS -> clear(r, off, ok); r++
        :: else -> break
        od;
        if
        :: !ok -> goto again       /* refused: the program calls again */
        :: else -> skip
        fi;
#else
        r = 0;
        do
        :: r < READERS -> atomic { word[2*r+off] = FREE }; r++
        :: else -> break
        od;
#endif
        torn[off] = true;
        copy[off] = g + 1;         /* it follows, and then changes */
        torn[off] = false;
#ifdef FLIP_FIRST
        shown = off;
        published = g + 1;
#endif
        r = 0;
        do
        :: r < READERS -> fill(r, off, g + 1); r++
        :: else -> break
        od;
#ifndef FLIP_FIRST
        shown = off;
        published = g + 1;
#endif
        g++
    :: else -> break
    od
}

proctype reader(byte me) {
    byte n = 0, side, seen = 0, before;
    bool got;
    do
    :: n < BURSTS ->
        before = published;
        got = false;
        do
        :: got -> break
        :: else ->
            side = shown;
#ifdef NO_CLAIM
            atomic { if :: word[2*me+side] == PRESENT -> got = true :: else -> skip fi }
#else
            atomic { if :: word[2*me+side] == PRESENT -> word[2*me+side] = IN; got = true :: else -> skip fi }
#ifndef NO_SECOND_LOOK
            if
            :: got && shown != side -> word[2*me+side] = PRESENT; got = false
            :: else -> skip
            fi
#endif
#endif
        od;
        assert(page[2*me+side] != 255);
        assert(!torn[side]);
        assert(copy[side] == page[2*me+side]);
        assert(page[2*me+side] >= before);   /* no older than what it was told of */
        assert(page[2*me+side] >= seen);
        seen = page[2*me+side];
        assert(copy[side] == seen && !torn[side]);  /* the burst ends on the same image */
#ifndef NO_CLAIM
        atomic { assert(word[2*me+side] == IN); word[2*me+side] = PRESENT };
#endif
        n++
    :: else -> break
    od
}

init {
    atomic {
        byte k = 0;
        do
        :: k < READERS -> word[2*k] = PRESENT; word[2*k+1] = FREE; page[2*k+1] = 255; k++
        :: else -> break
        od;
        k = 0;
        do
        :: k < READERS -> run reader(k); k++
        :: else -> break
        od;
        run writer()
    }
}
