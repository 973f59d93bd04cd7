// Sets of states. Each baseline is compiled twice: with WORDS = 1 for tables of up to 64 states, where a set is one word,
// and with WORDS = 2 for larger ones, so that small tables pay nothing for the upper word.
#include "bench.h"

enum { MOST = 64 * WORDS };

#if WORDS == 1
typedef uint64_t states;
#define BASELINE one_word
#else
typedef unsigned __int128 states;
#define BASELINE two_words
#endif

// Where it counts, a loop over the states of a set goes word by word: a state then takes half as many instructions.
#define EACH_WORD(w) _Pragma("GCC unroll 2") for (int w = 0; w < WORDS; w++)

static inline uint64_t word(states set, int w)
{
    return set >> 64 * w;
}

// The lowest state of word w of a set. The word has one.
static inline int lowest_in(uint64_t word, int w)
{
    return 64 * w + __builtin_ctzll(word);
}

// The lowest state of a set, which has one.
static inline int lowest(states set)
{
    return WORDS == 1 || word(set, 0) ? lowest_in(set, 0) : lowest_in(word(set, 1), 1);
}

// The set of q alone.
static inline states only(int q)
{
    return (states)1 << q;
}

static inline bool has(states set, unsigned q)
{
    return WORDS == 1 ? set >> q & 1 : (q < 64 ? word(set, 0) : word(set, 1)) >> q % 64 & 1;
}
