/* runtime.c: the one function that compiled code asks for and WebAssembly does not have: __multi3, the product of two words of 128 bits. The compiler turns the
   share's product of two words of 64 bits, of which the high word is wanted, into a call of it. It is outside the proof; tests/web holds it to the second
   program. Words come and go as halves, the low one first. */
typedef unsigned long long Word;

enum { HALF = 32 };

static Word low(Word word) { return word & 0xffffffffu; }
static Word high(Word word) { return word >> HALF; }

/* Modulo 2^128: schoolbook over the four halves of a's and b's low words; of the high words only what falls below 2^128. */
void __multi3(Word *product, Word a, Word a_high, Word b, Word b_high) {
    Word lows = low(a) * low(b), cross = low(a) * high(b), other = high(a) * low(b), highs = high(a) * high(b);
    Word middle = high(lows) + low(cross) + low(other);
    product[0] = middle << HALF | low(lows);
    product[1] = highs + high(cross) + high(other) + high(middle) + a * b_high + a_high * b;
}
