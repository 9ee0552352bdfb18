/* karvelorn.h: a 1978 synthesizer in whole numbers, for a host in C99 or C++.
 *
 * The library is libkarvelorn.a (crates/karvelorn/out, made by `tools/built karvelorn`) or libkarvelorn.so, for x86-64. It
 * needs nothing but memcpy, memset and memcmp of the C library, keeps nothing between calls, allocates nothing and prints
 * nothing. Calls on different machines may run at the same time. examples/ring_host.c is a whole host to start from, and a
 * small one stands below. Below: what a host must see to, the questions, the words of a machine, how to write a bell,
 * delay units, the older text; then names and the calls.
 *
 * A run of words is a pointer to its first uint32_t and then how many words it has. A machine is a run that the host
 * owns, and so is the delay memory beside it, which a pass is handed; between calls the host may read and write any of
 * their words. A host that sets T or N itself must set the update ticks too, machine[KARVELORN_UPDATE_TICKS]: N-T-8,
 * and 0 (not a difference that wraps) where N is less than T+8. A machine whose word disagrees with its T and N gets 2.
 * A command that sets T or N sets it as well, and nothing else writes it.
 *
 * What the host must see to, for every call:
 * - each pointer is aligned for its type;
 * - a run has valid memory for its whole length, for reading, and for writing too where it is not const; with length 0
 *   the pointer may be NULL;
 * - a pointer that a call answers through (read, written, clipped, taken, done, equal, alike, point, place, text,
 *   passes, count) is not NULL and has valid memory for one, clipped for KARVELORN_MARKS. What was there before is not
 *   looked at, and the call always sets it, in a refusal too; numbers is not NULL and has valid memory for
 *   KARVELORN_MODIFIERS, and of these words a call sets those that it has numbers for; an array of KARVELORN_KEPT words
 *   has valid memory for all of them;
 * - what a call writes (the runs that are not const, delay memory too, and what it answers through) overlaps nothing
 *   else that is handed to the same call, and nothing else reads or writes it during the call. Runs that are const may
 *   overlap each other.
 * Nothing else is asked of the host: words of any contents and runs of any length are answered, by a refusal where
 * they are not good.
 *
 * Each call answers 0, or the number of the first of its questions that is answered no:
 *   1  Has the machine KARVELORN_WORDS words?
 *   2  Are all words of the machine within their width and range, with built modes and no MIN or MRM top bits 11, and
 *      are the update ticks those of T and N?
 *   3  Is the command built, its modes and addresses too, disabled fields aside?
 *   4  Is the number of a TICKS with Q 0 at most 255?
 *   5  Has the order T entries?
 *   6  Is each number below T in the order once?
 *   7  Are there read items for all generators below T in run mode 0111?
 *   8  Are there written places for all generators below T in run mode 0011? (karvelorn_read: places for all commands?)
 *   9  Is the text a bench file, at most 65536 bytes?
 *   10 Has delay memory KARVELORN_MEMORY_WORDS words, none above 20 bits?
 *   11 Of the delay units in mode 1000 that modifiers below T div 2 invoke and that don't act as inactive: has each X+Z
 *      at most 65535 and Y at most Z?
 *   12 Do the modifiers below T div 2 that invoke delay units name different ones, whatever the units' modes?
 *   13 Is the text that the file names, if it names one, 1978 or old?
 *   14 Has each entry of a chain its two words, with names that stand in their run and are entries before it, and are
 *      all names an entry's?
 *   15 Are the earliest numbers for a chain at most 127?
 *   16 Is the sum of both machines' T at most 256?
 *   17 Has neither machine, below its T, a generator in 0111 or 0011 or with a GFM of 64 or more, nor an active modifier
 *      among all 128, and is the second's generator 0 in neither 1001 nor 1101?
 *   18 Is there no sum word and no DAC that both machines use?
 * A pass asks 1, 2, 5, 6, 7, 8, 10, 11 and 12 in this sequence. An update asks 1 and 2, then 3 and 4 as each command
 * has its turn; a compare asks 1 and 2, then 5 and 6 of each order, karvelorn_parts the same, then 1 of the run for the
 * contents and 7 of the read list, and karvelorn_any_order and karvelorn_keep 1 and 2; karvelorn_change asks 1 and 2,
 * then of the change; karvelorn_join asks 1 and 2 of the first machine, 1 and 2 of the second, then 16, 17 and 18. These
 * seven ask none of 10 to 12. karvelorn_chain, which is handed no machine, asks 14 and then 15, karvelorn_read 9 and 13 of
 * the file, then 1 and 8 of the runs. karvelorn_ring asks what its passes and its updates ask.
 * A refused call leaves every run as it was, but for an update that refuses a command (3 or 4): what it did before that
 * command stays done; and but for karvelorn_ring: what it did before the refusal stays done.
 *
 * The words of a machine. A signed one is kept as its two's-complement bits, in its own width: signed are GO, GJ, GK, GP,
 * M0, M1, L0, L1, sum memory, the DACs and delay memory, and no others:
 *   11g ..         generator g, 0 to 255: GO (20 bits), GJ (28), GK (20), GN (11), GM (4), GP (20), GQ (24), GL (12),
 *                  GSUM (6), GFM (7), GMODE (10)
 *   2816 + 8m ..   modifier m, 0 to 127: M0 (30), M1 (30), L0 (20), L1 (20), MIN (8), MRM (8), MSUM (7), MMODE (9)
 *   3840 ..        sum memory, 20 bits each: 64 words of generator-this-pass, 64 of generator-last, 64 of
 *                  modifier-this, 64 of modifier-last
 *   4096 ..        the sixteen DAC words, 20 bits signed: what the host plays after each pass
 *   4112           DX (20)
 *   4113           T, the processing ticks, 1 to 256
 *   4114           N, all ticks of a pass, 2 to 1025
 *   4115           the pass counter (32): every word is good
 *   4116           lingering, 0 or 1
 *   4117           the Linger pass (20)
 *   4118           overrun, 0 or 1
 *   4119 + 7u ..   delay unit u, 0 to 31: X (16), Y (16), Z (16), P (4), and three words on their way to the modifier
 *                  (20 each), next due first
 *   4343           the update ticks, N-T-8, or 0 if that is negative: how many commands an update takes at most
 *
 * Modes and addresses, from the left bit on (names for all of these stand below, before the calls):
 *   GMODE   run mode (4 bits), envelope mode (2), oscillator mode (4)
 *   GFM     0 generator-last or 1 modifier-last, then the word (6)
 *   MMODE   function (5), AA, the scale of products with M0 (2), BB, the scale of products with M1 (2)
 *   MIN     and MRM: 00 generator-last, 01 modifier-last or 10 modifier-this, then the word (6). In 00111 MRM's low 5
 *           bits name the delay unit
 *   MSUM    0 adds or 1 replaces, then the word of modifier-this (6)
 *   P       0000 inactive, 1000 delay line, 1010 table, 1011 table with its argument rounded; others are not built
 *
 * To write a bell. Here is one partial of 440 Hz at DAC 0, which falls by 60 dB in 3 s, rung for 2 s; what its numbers
 * mean is said below.
 *     static uint32_t m[KARVELORN_WORDS], memory[KARVELORN_MEMORY_WORDS], order[2] = {0, 1};
 *     uint8_t clipped[KARVELORN_MARKS];
 *     size_t read, written, taken;
 *     karvelorn_fresh(m, KARVELORN_WORDS);
 *     m[KARVELORN_T] = 2;
 *     m[KARVELORN_UPDATE_TICKS] = karvelorn_update_ticks(m[KARVELORN_T], m[KARVELORN_N]);
 *     m[karvelorn_generator(0, KARVELORN_GJ)] = 256 * 23841;
 *     m[karvelorn_generator(0, KARVELORN_GP)] = 180;
 *     m[karvelorn_generator(0, KARVELORN_GSUM)] = 1;
 *     m[karvelorn_generator(0, KARVELORN_GFM)] = 63;
 *     m[karvelorn_generator(0, KARVELORN_GMODE)] =
 *         karvelorn_gmode(KARVELORN_RUN_STICKY, KARVELORN_EXPONENTIAL_PLUS, KARVELORN_SINE);
 *     m[karvelorn_generator(1, KARVELORN_GFM)] = 1;
 *     m[karvelorn_generator(1, KARVELORN_GMODE)] = karvelorn_gmode(KARVELORN_RUN_DAC, 0, 0);
 *     for (int pass = 0; pass < 2 * 19352; pass++) {
 *         uint32_t refused = karvelorn_pass(m, KARVELORN_WORDS, order, 2, NULL, 0, NULL, 0, memory,
 *                                           KARVELORN_MEMORY_WORDS, &read, &written, clipped);
 *         if (!refused) refused = karvelorn_update(m, KARVELORN_WORDS, NULL, 0, &taken);
 *         if (refused) return puts(karvelorn_question(refused)), 1;
 *         play(karvelorn_sample(m[karvelorn_dac(0)]));
 *     }
 * The order names 0 to T-1 once each; by number is usual, and karvelorn_any_order tells where every other rings alike. An
 * update follows every pass, with no commands too: a Linger that waits ends only in an update at exactly its pass.
 *
 * Below, of each register the value before the turn is meant, / is exact division, floor(x) the largest whole number not
 * above x. Every sum is reduced to the low bits of its register.
 *
 * Time. A tick takes 195 ns. A pass is one sample and takes N ticks, so that there are rate = 1 / (N * 195 ns) passes a
 * second, 19351.7 with the N of a fresh machine, 265. Of the N ticks the first T are processing ticks (generator g has a
 * turn where g < T, modifier m where m < T div 2), 8 are overhead and the others, N-T-8, update ticks, each for one
 * command. So T is at least g + 1 for every generator g that is used, those for the DACs too, 2m + 2 for modifier m and
 * 4u + 10 for delay unit u; N follows from the rate, and is at least T + 8 and the commands that one update is to take.
 *
 * Pitch. GK is the angle, 2^20 a whole turn. Where the oscillator is on, each pass adds J to it: J = floor(GJ / 256) + F,
 * with F the word that GFM names. With F = 0 the pitch is
 *     floor(GJ / 256) / 2^20 * rate Hz,    so    GJ = 256 * round(Hz / rate * 2^20)
 * for Hz below rate / 2, in steps of rate / 2^20 (0.0185 Hz with N = 265). By command that is
 *     karvelorn_load_gj_left(g, round(Hz / rate * 2^20))
 * while DX is 0, as it is in a fresh machine and after each load that ends in _left; karvelorn_load_gj alone sets only the
 * low 20 bits, with their sign. GJ's low 8 bits are for the sweep alone: where the oscillator is on, each pass then adds
 * GO, signed, to GJ, and the pitch moves by GO / 2^28 * rate Hz a pass. F modulates the frequency, by F / 2^20 * rate Hz.
 * Every generator has an F: a GFM of 0 is generator-last word 0, not none. So a partial that is not to be modulated needs
 * a GFM whose word stays 0: 63 if no GSUM is 63, 127 if no MSUM names word 63. A phase is set by GK itself: 2^18 is a
 * quarter turn.
 *
 * Wave. K = floor(GK / 128), or floor(J / 128) in oscillator mode 1000, is the angle in 13 bits, -4096 to 4095 for half a
 * turn on either side. The wave W by the oscillator mode:
 *   0000    sine of GK: of 4096 * sin(2 pi (K + 1/2) / 8192) the whole part, at most 4095 (to the magnitude 0.0002 is
 *           added, which counts at K = 883 alone, and where that is mirrored); then its magnitude is shifted right by GM
 *           places, each of them -6.02 dB
 *   1000    the same of J: a sine whose angle is GJ and a sum word (phase modulation); it doesn't depend on GK
 *   0001    sawtooth: K, but 0 at -4096
 *   0010    square: -2048 where K is negative, else 2048
 *   0011    pulse train: 2048 in a pass in which floor(GJ / 256) + F, or GK + J where the oscillator is on, goes out of
 *           the range -2^19 to 2^19-1 as a signed sum; else 0. So one pulse a turn
 *   0100    sum of cosines, band-limited pulses: floor(4095 * |s| / (|d| * 2^GM)), at most 4095, with the sign of s * d,
 *           where s is the sine above at the index 2 * GN * K (its low 13 bits) and d that at K, both before any shift.
 *           With the angle x = 2 pi K / 8192 this is 4095 / 2^GM * 2 * (cos x + cos 3x + .. + cos (2 GN - 1)x): GN
 *           cosines of equal level. So that no peak is cut off, 2^GM is at least 2 * GN
 * GN counts in 0100 alone, GM in 0000, 1000 and 0100.
 *
 * Level. V, 0 to 4095, is GL - Q in the envelope modes 00 and 10, GL + Q in 01 and 11, its low 12 bits. Q comes from GQ,
 * 0 to 2^24 - 1:
 *   00, 01  linear: Q = floor(GQ / 4096)
 *   10, 11  exponential: with h = floor(GQ / 1024), Q is entry h mod 1024 shifted right by h div 1024 places, and entry f
 *           is floor(4093 * 2^(-f / 1024)): about 4093 * 2^(-GQ / 2^20), 1024 steps a halving. GQ has room for 16
 *           halvings, but Q is 0 from the 12th on, at GQ = 12581888; it is rounded down, so a partial that is nearly gone
 *           falls by steps, and a little faster
 * P has the sign of W and the magnitude floor((|W| * V + 32) / 64), at most 262016: half of what a sum word holds, so one
 * sine at V = 4095 is -6.02 dB. A sine with GM 0 has a peak of about 64 * V: so a level of so many dB below that is
 * V = 4093 * 10^(dB / 20), and sines that share a GSUM can't clip while their V together are at most 8191. P is added into
 * the word GSUM of generator-this-pass (in 0111 P plus the next read item replaces it); the next pass finds the sum in
 * generator-last.
 *
 * Envelope. Where the envelope is on, each pass then adds GP, signed, to GQ. A partial that dies away has envelope mode
 * 11, GL 0 and
 *     GQ = 2^20 * log2(4093 / V at the beginning),    GP = 2^20 * 9.966 / (T60 * rate)
 * both rounded, where T60 is the time in seconds to fall by 60 dB (9.966 halvings); rounding makes it longer or shorter by
 * up to 1 / (2 GP) of itself. To damp a partial, load a larger GP: run mode 0000 cuts it off at once, which clicks. A
 * linear fall from V = L to 0 in n passes: mode 01, GL 0, GQ = 4096 * L, GP = -floor(4096 * L / n), rounded towards 0 (with
 * one more the last addition would overflow, and a sticky generator sounds on for ever). A steady level: mode 01, GP 0. A
 * GQ that would go below 0 or above 2^24 - 1 overflows. The run modes differ in that, and in what is on:
 *   0000, 0001  inactive, pause: nothing is on. A MISC command makes every pause a 1111
 *   1111        oscillator, envelope, adding. Sticky: an addition that would overflow isn't made, and GQ keeps the value
 *               that it had. A bell's partial
 *   1110        the same, but free: GQ wraps, so that the envelope begins again and again, and each overflow triggers
 *   1101        the same, free, once: an overflow wraps and triggers, and the generator goes to 1001 for the next pass
 *   1001        wait: the oscillator turns, nothing is heard. It goes to 1101 for the next pass if generator g-1 was taken
 *               earlier in this pass and triggered (was in 1110 or 1101 and overflowed). A MISC command makes it a 1111
 *   0111        read data: envelope, sticky, the oscillator off; P plus the next read item replaces the sum word
 *   0011        write data: F is the next written item. Neither oscillator nor envelope is on, and nothing is added
 *   0010        DAC: F goes to the DAC that GO's low 4 bits name, the rest as in 0011. What a bell needs to be heard, one
 *               for each DAC, with GFM the word that its partials have as GSUM: they are heard one pass later. By way of a
 *               modifier GFM is 64 plus the word of its MSUM, and they are heard two passes later; so beside a side that
 *               needs a modifier another may want one of gain 1 (mixing with AA 1 and M0 2^28). A DAC word that nothing
 *               feeds any more keeps its value
 * Other run and oscillator modes are not built.
 *
 * Modifiers. A is the word that MIN names, B that of MRM; S goes to the word of MSUM. A product of two words of 20 bits
 * takes both as fractions of 2^19: a * b with scale s, 0 to 3, is floor((ab * 2^s + 2^18) / 2^19), so that 2^s is 1, 2, 4
 * or 8. An integer product, a ** b here, is floor(ab * 2^s / 4): 1/4, 1/2, 1 or 2. Each is reduced to 20 bits, and so are
 * sums: they wrap, and no mark tells of it. Of M0 and M1 the high 20 bits count, floor(M / 1024), so that M = 2^29 - 1 is
 * nearly 1. AA scales the products with M0 (in the 1978 text the second multiplication), and A*B, A*((B+1)/2) and B*L0,
 * where (B+1)/2 is floor((B + 2^19) / 2); BB scales those with M1 (the first). So mixing with M0 = 2^28, AA 0 and M1 = 0
 * is A by -6.02 dB. Modifier-this is cleared in each pass: for a word with one writer adding and replacing are alike.
 *   00000 inactive                S := 0 (where MSUM replaces, what lower modifiers put into the word is gone)
 *   00010 noise                   S := L0 + L1**M0;  L1 := S
 *   00011 triggered noise         S := L0 + L1**M0;  if B**M1 is not 0, L1 := S
 *   00100 latch                   S := L1;  if B*M1 is not 0, L1 := A
 *   00110 threshold               S := B*M1 if A*M0 + L0 is not negative, else 0
 *   00111 invoke delay unit       S := L0 + L1*M0;  L0 := DM;  L1 := A + DM*M1, which goes to the unit (below)
 *   01000 two poles               S := L1*M1 + L0*M0 + A;  L0 := L1;  L1 := S
 *   01001 .. with M0 variable     the same, then M0 := M0 + B (B's sign extended to 30 bits)
 *   01011 .. with M1 variable     the same, then M1 := M1 + B
 *   01100 two zeros               S := L1*M1 + L0*M0 + A;  L0 := L1;  L1 := A
 *   01101 .. with M0 variable     the same, then M0 := M0 + B
 *   01111 .. with M1 variable     the same, then M1 := M1 + B
 *   10000 integer mixing          S := A**M0 + B**M1
 *   10001 one pole                S := L1*M1 + B*L0;  L1 := S
 *   10100 mixing                  S := A*M0 + B*M1
 *   10110 one zero                S := L1*M1 + L0*M0;  L0 := L1;  L1 := A
 *   11000 four-quadrant product   S := L1*M1;  L1 := A*B
 *   11001 amplitude modulation    S := L1*M1;  L1 := A*((B+1)/2)
 *   11010 maximum, 11011 minimum  S := the larger, the smaller of A*M0 and B*M1
 *   11100 signum                  S := -1, 0 or 1 where A*M0 is less than, equal to or more than B*M1
 *   11101 pulser                  with t = B*M0 and u = L1*M1:  S := -1 (all bits 1) if u is not 0 and either t is 0 or t
 *                                 and u have different signs, else 0;  L1 := t
 * Other functions are not built. Modifiers are taken by number after the generators. In modifier-this a modifier m sees
 * the writes of modifiers up to m-4, but its A in latch, invoke delay unit, one zero, the two-pole and the two-zero
 * functions those up to m-1 (karvelorn_chain finds numbers for that).
 *
 * Delay units. In 00111 a modifier gets the word DM from its unit, and its new L1 goes to the unit. A unit acts as
 * inactive in mode 0000, from unit (T-6) div 4 on, and if T is below 10: it gives 0. Neither such a unit nor one that no
 * modifier below T div 2 invokes changes. Any other gives the first of its three words, and the two behind it move up.
 * Then, by its mode:
 *   1000         the word at X+Y of delay memory becomes the second word and the third is 0; the word from the modifier
 *                is put at X+Y, and Y steps by 1, from Z to 0. So a word comes back Z+3 passes later, if the unit has
 *                its turn in each of these passes, nothing else changes its words, and nothing else writes X+Y of delay
 *                memory until the word leaves it, Z+1 passes later: lines may overlap, and then they write over each
 *                other's words
 *   1010, 1011   the word from the modifier is shifted to the right by Z's low 4 bits, bringing in zeros; 1011 adds the
 *                highest bit shifted out, if there is one. The right 16 bits of this, plus X, modulo 65536, are an
 *                address: the word of delay memory there becomes the third word. So an answer comes three passes later,
 *                if the unit has its turn in each of these passes and nothing else changes its words. The word is looked
 *                up at the modifier's turn: what lines of lower modifiers put there in the same pass is seen
 *
 * Machines of the older text: karvelorn_old_pass, karvelorn_old_ring, karvelorn_old_compare and karvelorn_old_parts. They
 * are the same runs of words, and karvelorn_fresh makes them too: a fresh machine is good by both texts. No word tells
 * which text a machine follows; the call does. karvelorn_update, karvelorn_any_order, karvelorn_keep, karvelorn_change and karvelorn_join are
 * for machines of 1978 alone. What differs:
 *   Question 2  GMODE has 8 bits, with modes as below, and MMODE a function as below. All other words are asked as above
 *   GMODE       run mode (3 bits), each switched as a run mode of 1978: 000 inactive, 001 pause, 010 running (1111), 011
 *               running (1110), 101 running (1101), 100 wait (1001), 110 read data (0111), 111 sends. Envelope mode (2):
 *               00 and 10 add Q to GL, 01 and 11 take it from GL. Q is h = floor(GQ / 4096) or, in 10 and 11, entry h
 *               mod 256 shifted right by h div 256 places, where entry f is floor(4093 * 2^(-f / 256)). Oscillator mode
 *               (3), with K = floor(GK / 256), or floor(J / 256) in 101, -2048 to 2047 for half a turn on either side: 001
 *               square, -1024 or 1024, 010 sawtooth, K, 011 pulse train, 1024 or 0, 100 and 101 cosine: the sine above at
 *               the index 2K + 2048 (its low 13 bits), its magnitude shifted right by 1 + GM places. So each has half the
 *               level that it has in 1978. 000, a sum of cosines, is good in run mode 000 alone and never heard. 110 and
 *               111 are not built
 *   111         sends its own angle, J in oscillator mode 101 and GK in the others: as written data where GN is negative
 *               (its bit 10 is 1), else to the DAC that GN's low 4 bits name
 *   GN          is looked at in 111 alone. GM shifts the cosine
 *   Triggers    a generator in 100 goes to 101 where the one two below it was taken earlier in this pass and triggered;
 *               generators 0 and 1 have no such neighbour
 *   MMODE       function (5): 00000 inactive, 00001 mixing, 00010 latch, 00011 pulser, 00100 amplitude modulation, 00101
 *               four-quadrant product, 00110 minimum, 00111 maximum, 01000 two poles, 01001 with M0 variable, 01010 with
 *               M1 variable, 01100 two zeros, 01101 with M0 variable, 01110 with M1 variable, 10000 noise; others are not
 *               built. AA is the scale of the product with M1, BB of that with M0 and of the product of two signals. In
 *               the filters L0 goes with M1 and L1 with M0
 *   Delay       none: no modifier invokes a unit, 11 and 12 are not asked. 10 is, and delay memory stays as it was
 *   Questions   7 is asked of the generators below T in 110, 8 of those in 111 with a negative GN
 *   Left alone  DX, N, lingering, the Linger pass, overrun, the delay units' words and the update ticks
 *   Settings    T, every GMODE, GSUM and GFM, and the sign and the low 4 bits of GN of each generator in 111
 *   Points      1 has the neighbour two below, in 011 or 101, of one in 100; in 2 and 3 it is the generator itself that
 *               counts, not its GFM; 4 is the same, by 110 and by 010, 011 and 101
 */
#ifndef KARVELORN_H
#define KARVELORN_H

#include <stddef.h>
#include <stdint.h>

/* The version of this header and its library, as text. */
#define KARVELORN_VERSION "0.4.0"

/* Lengths of runs: a machine, delay memory, the marks of a pass, and places enough for the commands of any bench file. */
#define KARVELORN_WORDS 4344
#define KARVELORN_MEMORY_WORDS 65536
#define KARVELORN_MARKS 64
#define KARVELORN_COMMANDS 3855

/* How many there are. */
#define KARVELORN_GENERATORS 256
#define KARVELORN_MODIFIERS 128
#define KARVELORN_DELAYS 32
#define KARVELORN_DACS 16

/* The nanoseconds of a tick: there are 1e9 / (KARVELORN_TICK_NS * N) passes a second. */
#define KARVELORN_TICK_NS 195

/* The texts that a machine or a file can follow, as karvelorn_read answers them. */
#define KARVELORN_TEXT_1978 0
#define KARVELORN_TEXT_OLD 1

/* What karvelorn_keep makes: an array of so many words, and where the answer stands in it. */
#define KARVELORN_KEPT 2327
#define KARVELORN_KEPT_ALIKE 2326

/* The kinds of changes of karvelorn_change. */
#define KARVELORN_CHANGE_GMODE 0
#define KARVELORN_CHANGE_GSUM 1
#define KARVELORN_CHANGE_GFM 2
#define KARVELORN_CHANGE_DAC 3
#define KARVELORN_TICK_MORE 4
#define KARVELORN_TICK_FEWER 5

/* Words of a machine that stand alone. */
#define KARVELORN_DX 4112
#define KARVELORN_T 4113
#define KARVELORN_N 4114
#define KARVELORN_COUNTER 4115
#define KARVELORN_LINGERING 4116
#define KARVELORN_LINGER_PASS 4117
#define KARVELORN_OVERRUN 4118
#define KARVELORN_UPDATE_TICKS 4343

/* The registers of a generator, of a modifier and of a delay unit: which word of it each is. */
#define KARVELORN_GO 0
#define KARVELORN_GJ 1
#define KARVELORN_GK 2
#define KARVELORN_GN 3
#define KARVELORN_GM 4
#define KARVELORN_GP 5
#define KARVELORN_GQ 6
#define KARVELORN_GL 7
#define KARVELORN_GSUM 8
#define KARVELORN_GFM 9
#define KARVELORN_GMODE 10

#define KARVELORN_M0 0
#define KARVELORN_M1 1
#define KARVELORN_L0 2
#define KARVELORN_L1 3
#define KARVELORN_MIN 4
#define KARVELORN_MRM 5
#define KARVELORN_MSUM 6
#define KARVELORN_MMODE 7

#define KARVELORN_X 0
#define KARVELORN_Y 1
#define KARVELORN_Z 2
#define KARVELORN_P 3
#define KARVELORN_DUE_1 4
#define KARVELORN_DUE_2 5
#define KARVELORN_DUE_3 6

/* The quadrants of sum memory, as karvelorn_sum has them. */
#define KARVELORN_GENERATOR_THIS 0
#define KARVELORN_GENERATOR_LAST 1
#define KARVELORN_MODIFIER_THIS 2
#define KARVELORN_MODIFIER_LAST 3

/* Run modes, envelope modes and oscillator modes: the fields of GMODE. */
#define KARVELORN_RUN_INACTIVE 0x0
#define KARVELORN_RUN_PAUSE 0x1
#define KARVELORN_RUN_DAC 0x2
#define KARVELORN_RUN_WRITE 0x3
#define KARVELORN_RUN_READ 0x7
#define KARVELORN_RUN_WAIT 0x9
#define KARVELORN_RUN_ONCE 0xD
#define KARVELORN_RUN_FREE 0xE
#define KARVELORN_RUN_STICKY 0xF

#define KARVELORN_LINEAR_MINUS 0
#define KARVELORN_LINEAR_PLUS 1
#define KARVELORN_EXPONENTIAL_MINUS 2
#define KARVELORN_EXPONENTIAL_PLUS 3

#define KARVELORN_SINE 0x0
#define KARVELORN_SAWTOOTH 0x1
#define KARVELORN_SQUARE 0x2
#define KARVELORN_PULSE_TRAIN 0x3
#define KARVELORN_SUM_OF_COSINES 0x4
#define KARVELORN_SINE_OF_J 0x8

/* The functions of a modifier: the first field of MMODE. */
#define KARVELORN_INACTIVE 0x00
#define KARVELORN_NOISE 0x02
#define KARVELORN_TRIGGERED_NOISE 0x03
#define KARVELORN_LATCH 0x04
#define KARVELORN_THRESHOLD 0x06
#define KARVELORN_INVOKE_DELAY 0x07
#define KARVELORN_TWO_POLES 0x08
#define KARVELORN_TWO_POLES_M0_VARIABLE 0x09
#define KARVELORN_TWO_POLES_M1_VARIABLE 0x0B
#define KARVELORN_TWO_ZEROS 0x0C
#define KARVELORN_TWO_ZEROS_M0_VARIABLE 0x0D
#define KARVELORN_TWO_ZEROS_M1_VARIABLE 0x0F
#define KARVELORN_INTEGER_MIXING 0x10
#define KARVELORN_ONE_POLE 0x11
#define KARVELORN_MIXING 0x14
#define KARVELORN_ONE_ZERO 0x16
#define KARVELORN_FOUR_QUADRANT 0x18
#define KARVELORN_AMPLITUDE_MODULATION 0x19
#define KARVELORN_MAXIMUM 0x1A
#define KARVELORN_MINIMUM 0x1B
#define KARVELORN_SIGNUM 0x1C
#define KARVELORN_PULSER 0x1D

/* What MIN and MRM read from: the first field of them. GFM has the first two of these. */
#define KARVELORN_FROM_GENERATOR_LAST 0
#define KARVELORN_FROM_MODIFIER_LAST 1
#define KARVELORN_FROM_MODIFIER_THIS 2

/* Whether MSUM adds or replaces: the first field of it. */
#define KARVELORN_ADDS 0
#define KARVELORN_REPLACES 1

/* The modes of a delay unit: P. */
#define KARVELORN_DELAY_INACTIVE 0x0
#define KARVELORN_DELAY_LINE 0x8
#define KARVELORN_TABLE 0xA
#define KARVELORN_TABLE_ROUNDED 0xB

/* Places of a machine. The number of a generator, modifier, delay unit, word or DAC is one that there is. */
static inline uint32_t karvelorn_generator(uint32_t generator, uint32_t reg) { return 11 * generator + reg; }

static inline uint32_t karvelorn_modifier(uint32_t modifier, uint32_t reg) { return 2816 + 8 * modifier + reg; }

static inline uint32_t karvelorn_sum(uint32_t quadrant, uint32_t word) { return 3840 + 64 * quadrant + word; }

static inline uint32_t karvelorn_dac(uint32_t dac) { return 4096 + dac; }

static inline uint32_t karvelorn_delay(uint32_t unit, uint32_t reg) { return 4119 + 7 * unit + reg; }

/* The low bits of a number, as a word of that width keeps it, and the signed number of such a word; 1 to 31 bits. */
static inline uint32_t karvelorn_word(int32_t value, uint32_t bits) {
    return (uint32_t)value & ((UINT32_C(1) << bits) - 1);
}

static inline int32_t karvelorn_signed(uint32_t word, uint32_t bits) {
    const uint32_t sign = UINT32_C(1) << (bits - 1);
    return (int32_t)((word & (2 * sign - 1)) ^ sign) - (int32_t)sign;
}

/* What a DAC word plays: -524288 to 524287. */
static inline int32_t karvelorn_sample(uint32_t word) { return karvelorn_signed(word, 20); }

/* The update ticks of T and N: N-T-8, or 0 if that is negative. T and N may be any words. */
static inline uint32_t karvelorn_update_ticks(uint32_t t, uint32_t n) { return n < t || n - t < 8 ? 0 : n - t - 8; }

/* Words made of their fields. */
static inline uint32_t karvelorn_gmode(uint32_t run, uint32_t envelope, uint32_t oscillator) {
    return (run & 15) << 6 | (envelope & 3) << 4 | (oscillator & 15);
}

static inline uint32_t karvelorn_gfm(uint32_t from, uint32_t word) { return (from & 1) << 6 | (word & 63); }

static inline uint32_t karvelorn_mmode(uint32_t function, uint32_t aa, uint32_t bb) {
    return (function & 31) << 4 | (aa & 3) << 2 | (bb & 3);
}

static inline uint32_t karvelorn_address(uint32_t from, uint32_t word) { return (from & 3) << 6 | (word & 63); }

static inline uint32_t karvelorn_msum(uint32_t replaces, uint32_t word) { return (replaces & 1) << 6 | (word & 63); }

/* Commands, for karvelorn_update and for bench files, by their fields (karvelorn_update lists these). Of each value the
 * bits of its field count. A load without more in its name is right-adjusted: the register gets a signed value of 20
 * bits. One that ends in _left gives the register's high 20 bits (what pitch and GQ mostly want); its low bits come from
 * DX's left, and DX is cleared. */
static inline uint32_t karvelorn_command(uint32_t data, uint32_t code) { return data << 12 | code; }

static inline uint32_t karvelorn_load_dx(uint32_t value) { return karvelorn_command(value, 0x020); }

static inline uint32_t karvelorn_clear_waits(void) { return 0x004; }

static inline uint32_t karvelorn_clear_pauses(void) { return 0x002; }

static inline uint32_t karvelorn_load_x(uint32_t unit, uint32_t x) { return x << 16 | 0x080 | (unit & 31); }

static inline uint32_t karvelorn_load_y(uint32_t unit, uint32_t y) { return ~y << 16 | 0x0A0 | (unit & 31); }

static inline uint32_t karvelorn_load_zp(uint32_t unit, uint32_t z, uint32_t p) {
    return z << 16 | (p & 15) << 12 | 0x0C0 | (unit & 31);
}

static inline uint32_t karvelorn_set_counter(uint32_t pass) { return karvelorn_command(pass, 0x108); }

static inline uint32_t karvelorn_linger(uint32_t pass) { return karvelorn_command(pass, 0x110); }

static inline uint32_t karvelorn_clear_and_linger(uint32_t pass) { return karvelorn_command(pass, 0x118); }

static inline uint32_t karvelorn_set_t(uint32_t t) { return karvelorn_command((t - 1) & 1023, 0x180); }

static inline uint32_t karvelorn_set_n(uint32_t n) { return karvelorn_command((n - 2) & 1023, 0x188); }

static inline uint32_t karvelorn_load_gq(uint32_t generator, int32_t value) {
    return karvelorn_command((uint32_t)value, 0x200 | (generator & 255));
}

static inline uint32_t karvelorn_load_gq_left(uint32_t generator, uint32_t high) {
    return karvelorn_command(high, 0x300 | (generator & 255));
}

static inline uint32_t karvelorn_load_gj(uint32_t generator, int32_t value) {
    return karvelorn_command((uint32_t)value, 0x400 | (generator & 255));
}

static inline uint32_t karvelorn_load_gj_left(uint32_t generator, int32_t high) {
    return karvelorn_command((uint32_t)high, 0x500 | (generator & 255));
}

static inline uint32_t karvelorn_load_gp(uint32_t generator, int32_t value) {
    return karvelorn_command((uint32_t)value, 0x600 | (generator & 255));
}

static inline uint32_t karvelorn_load_gn_gm(uint32_t generator, uint32_t gn, uint32_t gm) {
    return (gn & 2047) << 16 | (gm & 15) << 12 | 0x700 | (generator & 255);
}

static inline uint32_t karvelorn_load_gn(uint32_t generator, uint32_t gn) {
    return UINT32_C(1) << 30 | karvelorn_load_gn_gm(generator, gn, 0);
}

static inline uint32_t karvelorn_load_gm(uint32_t generator, uint32_t gm) {
    return UINT32_C(2) << 30 | karvelorn_load_gn_gm(generator, 0, gm);
}

static inline uint32_t karvelorn_load_gl_gsum(uint32_t generator, uint32_t gl, uint32_t gsum) {
    return (gl & 4095) << 18 | (gsum & 63) << 12 | 0x800 | (generator & 255);
}

static inline uint32_t karvelorn_load_gl(uint32_t generator, uint32_t gl) {
    return UINT32_C(1) << 30 | karvelorn_load_gl_gsum(generator, gl, 0);
}

static inline uint32_t karvelorn_load_gsum(uint32_t generator, uint32_t gsum) {
    return UINT32_C(2) << 30 | karvelorn_load_gl_gsum(generator, 0, gsum);
}

static inline uint32_t karvelorn_load_gk(uint32_t generator, int32_t value) {
    return karvelorn_command((uint32_t)value, 0x900 | (generator & 255));
}

static inline uint32_t karvelorn_load_gmode_gfm(uint32_t generator, uint32_t gmode, uint32_t gfm) {
    return (gmode & 1023) << 19 | (gfm & 127) << 12 | 0xA00 | (generator & 255);
}

static inline uint32_t karvelorn_load_gmode(uint32_t generator, uint32_t gmode) {
    return UINT32_C(2) << 29 | karvelorn_load_gmode_gfm(generator, gmode, 0);
}

static inline uint32_t karvelorn_load_gfm(uint32_t generator, uint32_t gfm) {
    return UINT32_C(4) << 29 | karvelorn_load_gmode_gfm(generator, 0, gfm);
}

static inline uint32_t karvelorn_clear_gk(uint32_t generator) {
    return UINT32_C(7) << 29 | karvelorn_load_gmode_gfm(generator, 0, 0);
}

static inline uint32_t karvelorn_load_go(uint32_t generator, int32_t value) {
    return karvelorn_command((uint32_t)value, 0xB00 | (generator & 255));
}

static inline uint32_t karvelorn_load_m0(uint32_t modifier, int32_t value) {
    return karvelorn_command((uint32_t)value, 0xC00 | (modifier & 127));
}

static inline uint32_t karvelorn_load_m1(uint32_t modifier, int32_t value) {
    return karvelorn_command((uint32_t)value, 0xC80 | (modifier & 127));
}

static inline uint32_t karvelorn_load_m0_left(uint32_t modifier, int32_t high) {
    return karvelorn_command((uint32_t)high, 0xD00 | (modifier & 127));
}

static inline uint32_t karvelorn_load_m1_left(uint32_t modifier, int32_t high) {
    return karvelorn_command((uint32_t)high, 0xD80 | (modifier & 127));
}

static inline uint32_t karvelorn_load_l0(uint32_t modifier, int32_t value) {
    return karvelorn_command((uint32_t)value, 0xE00 | (modifier & 127));
}

static inline uint32_t karvelorn_load_l1(uint32_t modifier, int32_t value) {
    return karvelorn_command((uint32_t)value, 0xE80 | (modifier & 127));
}

static inline uint32_t karvelorn_load_mmode_msum(uint32_t modifier, uint32_t mmode, uint32_t msum) {
    return (mmode & 511) << 19 | (msum & 127) << 12 | 0xF00 | (modifier & 127);
}

static inline uint32_t karvelorn_load_mmode(uint32_t modifier, uint32_t mmode) {
    return UINT32_C(4) << 28 | karvelorn_load_mmode_msum(modifier, mmode, 0);
}

static inline uint32_t karvelorn_load_function(uint32_t modifier, uint32_t function) {
    return UINT32_C(5) << 28 | karvelorn_load_mmode_msum(modifier, karvelorn_mmode(function, 0, 0), 0);
}

static inline uint32_t karvelorn_load_scales(uint32_t modifier, uint32_t aa, uint32_t bb) {
    return UINT32_C(12) << 28 | karvelorn_load_mmode_msum(modifier, karvelorn_mmode(0, aa, bb), 0);
}

static inline uint32_t karvelorn_load_msum(uint32_t modifier, uint32_t msum) {
    return UINT32_C(9) << 28 | karvelorn_load_mmode_msum(modifier, 0, msum);
}

static inline uint32_t karvelorn_clear_l0(uint32_t modifier) {
    return UINT32_C(15) << 28 | karvelorn_load_mmode_msum(modifier, 0, 0);
}

static inline uint32_t karvelorn_load_mrm_min(uint32_t modifier, uint32_t mrm, uint32_t min) {
    return (mrm & 255) << 20 | (min & 255) << 12 | 0xF80 | (modifier & 127);
}

static inline uint32_t karvelorn_load_mrm(uint32_t modifier, uint32_t mrm) {
    return UINT32_C(1) << 30 | karvelorn_load_mrm_min(modifier, mrm, 0);
}

static inline uint32_t karvelorn_load_min(uint32_t modifier, uint32_t min) {
    return UINT32_C(2) << 30 | karvelorn_load_mrm_min(modifier, 0, min);
}

static inline uint32_t karvelorn_clear_l1(uint32_t modifier) {
    return UINT32_C(7) << 29 | karvelorn_load_mrm_min(modifier, 0, 0);
}

/* The two commands that load all bits of a register of more than 20: the low ones go to DX first. */
static inline void karvelorn_load_whole_gj(uint32_t commands[2], uint32_t generator, int32_t gj) {
    commands[0] = karvelorn_load_dx((uint32_t)gj << 12);
    commands[1] = karvelorn_load_gj_left(generator, (int32_t)((uint32_t)gj >> 8));
}

static inline void karvelorn_load_whole_gq(uint32_t commands[2], uint32_t generator, uint32_t gq) {
    commands[0] = karvelorn_load_dx(gq << 16);
    commands[1] = karvelorn_load_gq_left(generator, gq >> 4);
}

static inline void karvelorn_load_whole_m0(uint32_t commands[2], uint32_t modifier, int32_t m0) {
    commands[0] = karvelorn_load_dx((uint32_t)m0 << 10);
    commands[1] = karvelorn_load_m0_left(modifier, (int32_t)((uint32_t)m0 >> 10));
}

static inline void karvelorn_load_whole_m1(uint32_t commands[2], uint32_t modifier, int32_t m1) {
    commands[0] = karvelorn_load_dx((uint32_t)m1 << 10);
    commands[1] = karvelorn_load_m1_left(modifier, (int32_t)((uint32_t)m1 >> 10));
}

/* A question as text, by the number that a call answers. */
static inline const char *karvelorn_question(uint32_t number) {
    switch (number) {
    case 0: return "No question refused.";
    case 1: return "Has the machine 4344 words?";
    case 2: return "Are all words within their width and range, with built modes, and the update ticks those of T and N?";
    case 3: return "Is the command built, its modes and addresses too?";
    case 4: return "Is the number of a TICKS with Q 0 at most 255?";
    case 5: return "Has the order T entries?";
    case 6: return "Is each number below T in the order once?";
    case 7: return "Are there read items for all generators below T that read data?";
    case 8: return "Are there places for all that is written?";
    case 9: return "Is the text a bench file?";
    case 10: return "Has delay memory 65536 words, none above 20 bits?";
    case 11: return "Has each delay line that runs X+Z at most 65535 and Y at most Z?";
    case 12: return "Do the modifiers that invoke delay units name different ones?";
    case 13: return "Is the text that the file names known?";
    case 14: return "Do the entries of the chain have their form, and name only entries before them?";
    case 15: return "Are the earliest numbers for the chain at most 127?";
    case 16: return "Is the sum of both machines' T at most 256?";
    case 17: return "Do both machines sound by generators alone, and can the second follow the first?";
    case 18: return "Is there no sum word and no DAC that both machines use?";
    default: return "No question has this number.";
    }
}

#ifdef __cplusplus
extern "C" {
#endif

/* Makes a run of words a fresh machine: zero but for T = 1, N = 265 and the update ticks, 256, whatever it held.
 *
 *   machine, words   the run, and its length: KARVELORN_WORDS
 *
 * Answers 0, or 1 where the run has another length; it is left as it was then.
 */
uint32_t karvelorn_fresh(uint32_t *machine, size_t words);

/* One pass: generators 0 to T-1 in the given order, modifiers 0 to (T div 2)-1 by number, each with the delay unit that
 * it invokes; then both this-pass quadrants of sum memory are copied to last and cleared, and 1 is added to the pass
 * counter.
 *
 *   machine, words        the machine, and its length: KARVELORN_WORDS; the pass changes it in place
 *   order, entries        the numbers 0 to T-1, each once, in the order in which generators are taken; entries is T
 *   items, items_len      read data: the items that generators in run mode 0111 take, one each, from the first on; of
 *                         an item the low 20 bits count. There may be more than are taken
 *   places, places_len    written data: where generators in run mode 0011 put their items (20 bits), one each, from the
 *                         first on. There may be more than are written; places past the last item keep their contents
 *   memory, memory_words  delay memory, and its length: KARVELORN_MEMORY_WORDS; the pass changes it in place. At first
 *                         it is zero, but for what the host puts there, such as tables; each pass of the machine then
 *                         gets it as the last one left it
 *   read, written         get how many items were read and written, both 0 in a refusal
 *   clipped               gets KARVELORN_MARKS marks, one byte for each generator-this word: 1 where a signed sum in it,
 *                         P added into it or P plus a read item's low 20 bits replacing it, was outside -524288 to 524287 in
 *                         this pass, though the word may have come back since; else 0. All are 0 in a refusal. The
 *                         word itself wraps. Which marks are set may depend on the order, also of equal orders. No mark
 *                         tells of modifiers
 *
 * Answers 0, 1, 2, 5, 6, 7, 8, 10, 11 or 12. A refused pass changes no word of the machine or of delay memory, and no
 * place.
 */
uint32_t karvelorn_pass(uint32_t *machine, size_t words, const uint32_t *order, size_t entries,
                        const uint32_t *items, size_t items_len, uint32_t *places, size_t places_len,
                        uint32_t *memory, size_t memory_words, size_t *read, size_t *written,
                        uint8_t clipped[KARVELORN_MARKS]);

/* One update: commands change the machine between two passes. They are taken one after the other from the first on, at
 * most as many as the update ticks, N-T-8 or none if that is negative, by N and T as the update begins. While the
 * machine lingers and the counter's low 20 bits aren't the Linger pass, none is taken and nothing changes; otherwise
 * lingering ends, and commands are taken until a Linger waits or the ticks or the commands end.
 *
 *   machine, words          the machine, and its length: KARVELORN_WORDS; the update changes it in place
 *   commands, commands_len  the commands. There may be more than are taken
 *   taken                   gets how many commands were taken. The host hands the others to its next update:
 *                           commands + taken, commands_len - taken. A Linger that waits is taken, a refused command is
 *                           not
 *
 * Answers 0, 1, 2, 3 or 4. After 1 or 2 none is taken and nothing changes. 3 and 4 are about one command,
 * commands[taken], and are asked only when its turn comes: what the commands before it did stays done, and lingering
 * that this update ended stays ended. The refused command and those after it do nothing. To go on after it, the host
 * leaves it out.
 *
 * The commands, from the left bit on (x: not looked at; in brackets, how many bits):
 *   data(20)                  00000 RR xx W P S   MISC: RR 01 loads DX; W makes each run mode 1001 a 1111, P each 0001
 *   data(16) P(4)             00001 UU unit(5)    DLY: UU 00 loads X and clears Y, 01 loads Y with 65535 minus the
 *                                                 data, 10 loads Z and P
 *   data(20)                  00010 xx TT xxx     TIMER: TT 01 sets the counter, its high 12 bits to 0, 10 is a
 *                                                 Linger, 11 clears the counter and is a Linger
 *   x(10) number(10)          00011 xx 0 Q xxx    TICKS: Q 0 sets T to number + 1, Q 1 sets N to number + 2;
 *                                                 either sets the update ticks
 *   data(20)                  001 E generator(8)  GQ, right-adjusted (E 0) or left-adjusted (E 1)
 *   data(20)                  010 E generator(8)  GJ, right-adjusted (E 0) or left-adjusted (E 1)
 *   data(20)                  0110 generator(8)   GP
 *   N M xxx GN(11) GM(4)      0111 generator(8)   GN and GM: N and M disable them
 *   L S GL(12) GSUM(6)        1000 generator(8)   GL and GSUM: L and S disable them
 *   data(20)                  1001 generator(8)   GK
 *   M F C GMODE(10) GFM(7)    1010 generator(8)   GMODE and GFM: M and F disable them; C clears GK
 *   data(20)                  1011 generator(8)   GO
 *   data(20)                  110 VV modifier(7)  M0 (VV 00), M1 (01) right-adjusted, M0 (10), M1 (11) left-adjusted
 *   data(20)                  1110 N modifier(7)  L0 (N 0) or L1 (N 1)
 *   M S C H MMODE(9) MSUM(7)  11110 modifier(7)   MMODE and MSUM: M disables the function, H disables AA and BB, S
 *                                                 disables MSUM; C clears L0
 *   R I C x MRM(8) MIN(8)     11111 modifier(7)   MRM and MIN: R and I disable them; C clears L1
 * A right-adjusted load extends the sign; a left-adjusted one takes its low bits from DX's left and clears DX. A Linger
 * is compared with the counter's low 20 bits: at its pass it doesn't wait, nor 1 to 4096 passes late (modulo 2^20), when
 * it sets overrun; any other waits: it sets lingering and the Linger pass, and ends in the update at exactly that pass. So
 * with a counter that began at 0 and an update after every pass, what follows karvelorn_linger(p) is done when p passes
 * have been made: the first pass with it is number p, counted from 0. Not built (3): MISC with S or with
 * RR 10 or 11, DLY with UU 11 or with UU 10 and a P that is not built, TICKS with a 1 in place of its 0, and modes,
 * functions and MIN or MRM top bits that question 2 refuses, unless disabled.
 */
uint32_t karvelorn_update(uint32_t *machine, size_t words, const uint32_t *commands, size_t commands_len,
                          size_t *taken);

/* A block: up to so many passes, each followed by an update with the commands still left, and what DACs play after each
 * pass and its update, as audio programs want it. It is what karvelorn_pass, with no items and no places, and
 * karvelorn_update do by turns, in far less time: the questions of a pass are asked once a call, and again only after an
 * update that took commands. Asking, of 65536 words of delay memory too, takes about as long as two passes at T 256: of
 * the time of blocks of 64 it is a thirtieth there, and about a seventh at T 20. One pass a call costs about what
 * karvelorn_pass costs.
 *
 *   machine, words          the machine, and its length: KARVELORN_WORDS; it is changed in place
 *   memory, memory_words    delay memory, as karvelorn_pass has it; it is changed in place
 *   commands, commands_len  the commands still to be taken; NULL and 0 where there are none
 *   order, entries          the order in which generators are taken, the same in every pass; entries is T. NULL and 0:
 *                           by number, 0 to T-1, also after commands that change T
 *   passes                  how many passes at most
 *   dacs, dacs_len          the DACs that a frame has, in its sequence: {0, 1} for a left and a right one, the numbers 0
 *                           to 15 for all. Of each number the low 4 bits count, and a number may stand twice. With NULL
 *                           and 0 nothing is written, and the passes need no room
 *   frames, frames_len      gets a frame of dacs_len samples for each pass that is done, one after the other from the
 *                           first on: -524288 to 524287. Room past them stays as it was. frames_len counts samples
 *   done                    gets how many passes were done; of each its frame is there
 *   taken                   gets how many commands were taken. The host hands the others to its next call:
 *                           commands + taken, commands_len - taken
 *
 * It stops when all passes are done, when there is no room for another whole frame, or at a refusal. Answers 0 in the
 * first two cases (done is less than passes where room ended it; with no passes or no room nothing is asked), else the
 * number that the refused pass or update answers:
 *   1, 2, 5 to 8,  the pass after the last done was refused. Machine and delay memory are as the update before it left
 *   10 to 12       them
 *   3, 4           the pass after the last done was made and its update refused commands[taken]. Machine and delay
 *                  memory are as karvelorn_update leaves them: the pass and the commands before that one stay done. This
 *                  pass is not counted and has no frame, though its DAC words stand in the machine. To go on, the host
 *                  leaves the command out: commands + taken + 1
 *
 * Blocks join: any way of cutting passes into blocks, each call with the commands that the ones before left, gives the
 * same frames, commands taken, machine and delay memory, and the same refusal. From a machine and commands of
 * karvelorn_read, over a delay memory that is zero at first and without an order, the frames of DAC 0 and DAC 1 are what
 * the program ring prints.
 */
uint32_t karvelorn_ring(uint32_t *machine, size_t words, uint32_t *memory, size_t memory_words,
                        const uint32_t *commands, size_t commands_len, const uint32_t *order, size_t entries,
                        uint32_t passes, const uint32_t *dacs, size_t dacs_len, int32_t *frames, size_t frames_len,
                        uint32_t *done, size_t *taken);

/* Whether two orders of the generators are equal, so that it makes no difference which one a pass goes by: on every
 * machine with the settings of this one, whatever its other words hold, and with any read items and any delay memory,
 * passes by the two orders leave the same value in each word of the machine and of delay memory and write the same
 * items in the same sequence; what a pass answers in clipped is not compared. Settings are T, every GMODE, GSUM and
 * GFM, and the low 4 bits of GO of each generator in run mode 0010.
 *
 *   machine, words          the machine, and its length: KARVELORN_WORDS; it is only read
 *   first, first_entries    an order: the numbers 0 to T-1, each once; first_entries is T
 *   second, second_entries  the other order, likewise
 *   equal                   gets 1 where the orders are equal, 0 where they are not and in a refusal
 *
 * Answers 0, 1, 2, 5 or 6: 5 and 6 are asked of the first order, then of the second.
 */
uint32_t karvelorn_compare(const uint32_t *machine, size_t words, const uint32_t *first, size_t first_entries,
                           const uint32_t *second, size_t second_entries, uint32_t *equal);

/* Whether every two orders of the generators are equal, as karvelorn_compare has it: then no order has to be compared.
 * The rule, over generators 0 to T-1: no generator in run mode 1001 has a lower neighbour in 1110 or 1101; the
 * generators in 0010 of each DAC share one GFM; all generators in 0011 share one GFM; at most one is in 0111, and none
 * in 1101, 1110 or 1111 has its GSUM.
 *
 *   machine, words  the machine, and its length: KARVELORN_WORDS; it is only read
 *   alike           gets 1 where every two orders are equal, as with T = 1; 0 where two are not and in a refusal
 *
 * Answers 0, 1 or 2.
 */
uint32_t karvelorn_any_order(const uint32_t *machine, size_t words, uint32_t *alike);

/* Makes what is kept beside a machine, so that karvelorn_any_order's answer stays in view while karvelorn_change changes
 * one partial after the other: kept[KARVELORN_KEPT_ALIKE] is 1 where every two orders are equal, else 0.
 *
 *   machine, words  the machine, of 1978, and its length: KARVELORN_WORDS; it is only read
 *   kept            gets KARVELORN_KEPT words, the machine's own; what they were is not looked at. In a refusal they stay
 *
 * The words, each a count over generators 0 to T-1:
 *   w, 64 + w        w 0 to 63: the generators in 0111, and those in 1101, 1110 or 1111, with GSUM w
 *   128 + f          f 0 to 127: the generators in 0011 with GFM f
 *   256 + 128d + f   d 0 to 15: the generators in 0010 of DAC d with GFM f
 *   2304             the generators that are none of these
 *   2305             all generators in 0111
 *   2306             the generators in 1001 whose lower neighbour is in 1110 or 1101
 *   2307 + d         from how many GFMs DAC d is fed
 *   2323             from how many GFMs generators in 0011 write
 *   2324             how many DACs are fed from more than one GFM
 *   2325             how many sum words have a generator in 0111 and one in 1101, 1110 or 1111
 *   2326             the answer: KARVELORN_KEPT_ALIKE
 *
 * Answers 0, 1 or 2.
 */
uint32_t karvelorn_keep(const uint32_t *machine, size_t words, uint32_t kept[KARVELORN_KEPT]);

/* Changes one partial of a machine, and brings what is kept up to date: from the machine's own words it leaves the own
 * words of the machine as it then is, whatever the changes were. It takes hardly longer than questions 1 and 2.
 *
 *   machine, words  the machine, of 1978, and its length: KARVELORN_WORDS; the change is made in place
 *   kept            KARVELORN_KEPT words, as karvelorn_keep made them of this machine and karvelorn_change left them
 *   kind            KARVELORN_CHANGE_GMODE, _GSUM, _GFM: the generator's register becomes the value.
 *                   KARVELORN_CHANGE_DAC: GO's low 4 bits become the value, its others stay.
 *                   KARVELORN_TICK_MORE, KARVELORN_TICK_FEWER: T becomes one more or one less, and the update ticks
 *                   follow; neither generator nor value is looked at
 *   generator       0 to 255. One from T on may be changed; it counts for nothing before T reaches it
 *   value           the register's new value, or the DAC number, 0 to 15
 *
 * Answers 0, 1 or 2: after questions 1 and 2 of the machine, 2 where the kind is none of these, the generator is above
 * 255 or the DAC above 15, and where question 2 would fail after the change (T 0 and T 257 among this). In a refusal
 * machine and kept stay as they were.
 *
 * Words that aren't the machine's own: after a pass, an update or a word that the host sets, kept is no longer the
 * machine's own, and karvelorn_keep makes it again. With words that aren't its own the call ends all the same, with the
 * number and the machine that it has with its own; only what kept then holds, its answer too, tells nothing.
 */
uint32_t karvelorn_change(uint32_t *machine, size_t words, uint32_t kept[KARVELORN_KEPT], uint32_t kind,
                          uint32_t generator, uint32_t value);

/* What parts two orders, where karvelorn_compare says that they are not equal: what to renumber, and contents that show
 * it. The four points, over generators 0 to T-1, and what place says of each:
 *   1  a generator in run mode 1001 whose lower neighbour is in 1110 or 1101 stands on another side of it in one order
 *      than in the other: the waiting generator
 *   2  a DAC is fed last, by generators in 0010, through another GFM: the DAC
 *   3  the generators in 0011, in order, give another list of GFMs: the place in the written data, from 0
 *   4  a sum word with generators in 0111 has another last one, or the last one at another place among all 0111s, or
 *      other adding generators (1101, 1110, 1111) after it: the word
 *
 *   machine, words             the machine, and its length: KARVELORN_WORDS; it is only read
 *   first, first_entries       an order: the numbers 0 to T-1, each once; first_entries is T
 *   second, second_entries     the other order, likewise
 *   contents, contents_words   a run for a machine, and its length: KARVELORN_WORDS. Where a point is named it gets a
 *                              machine with the settings of this one; what it held is not looked at
 *   items, items_len           a read list with room for an item for each generator below T in run mode 0111. Where a
 *                              point is named it gets these items; those beyond them stay
 *   point                      gets the first of the four points that fails, 1 to 4; 0 where the orders are equal and
 *                              in a refusal
 *   place                      gets the lowest place at which it fails; 0 where point is 0
 *
 * From the contents, with the items, a pass by the first order and a pass by the second both run, over the same delay
 * memory, any that passes question 10, and with written places enough; and they leave another machine or other written
 * data. Where point is 0 the run and the list are left as they were.
 *
 * Answers 0, 1, 2, 5, 6 or 7: 5 and 6 are asked of the first order, then of the second; after these 1 is asked of the
 * run for the contents and 7 of the read list, also where the orders are equal.
 */
uint32_t karvelorn_parts(const uint32_t *machine, size_t words, const uint32_t *first, size_t first_entries,
                         const uint32_t *second, size_t second_entries, uint32_t *contents, size_t contents_words,
                         uint32_t *items, size_t items_len, uint32_t *point, uint32_t *place);

/* Two bells in one ring: joins two machines of 1978 to one in which each bell sounds as it does alone. A machine uses a
 * sum word that is GSUM or GFM of a generator below T, an idle one too, and a DAC that a generator below T in 0010
 * names. (So two fresh machines both use word 0: 18.) The first machine becomes the joined one:
 *   generators     the second's below its T, all their words, follow the first's T, over what the first held there
 *   sum words      the second's that it uses, of generator-this-pass and of generator-last
 *   DAC words      the second's that it uses
 *   T              the sum of both, with the update ticks of this T and the first's N
 * Everything else stays the first's.
 *
 *   machine, words        the first machine, and its length: KARVELORN_WORDS
 *   second, second_words  the second machine, and its length: KARVELORN_WORDS; it is only read
 *
 * Passes by number (order 0 to T-1), with no items and no places, over a delay memory that passes question 10, are not
 * refused. After each of them the sum words and DAC words that a bell uses, and the words of its generators, are those
 * it has alone after as many passes; and a change that the host makes between two passes to the words of one bell's
 * generators, and that keeps question 2 and the settings (karvelorn_compare), alters none of the other's from then on.
 *
 * Answers 0, 1, 2, 16, 17 or 18. A refusal leaves the first machine as it was.
 */
uint32_t karvelorn_join(uint32_t *machine, size_t words, const uint32_t *second, size_t second_words);

/* A pass, a block, a compare and parts of a machine of the older text: as karvelorn_pass, karvelorn_ring,
 * karvelorn_compare and karvelorn_parts, with the differences listed above. A pass answers 0, 1, 2, 5, 6, 7, 8 or 10. In
 * a block no update follows a pass: the commands are not looked at, and taken gets 0.
 */
uint32_t karvelorn_old_pass(uint32_t *machine, size_t words, const uint32_t *order, size_t entries,
                            const uint32_t *items, size_t items_len, uint32_t *places, size_t places_len,
                            uint32_t *memory, size_t memory_words, size_t *read, size_t *written,
                            uint8_t clipped[KARVELORN_MARKS]);

uint32_t karvelorn_old_ring(uint32_t *machine, size_t words, uint32_t *memory, size_t memory_words,
                            const uint32_t *commands, size_t commands_len, const uint32_t *order, size_t entries,
                            uint32_t passes, const uint32_t *dacs, size_t dacs_len, int32_t *frames, size_t frames_len,
                            uint32_t *done, size_t *taken);

uint32_t karvelorn_old_compare(const uint32_t *machine, size_t words, const uint32_t *first, size_t first_entries,
                               const uint32_t *second, size_t second_entries, uint32_t *equal);

uint32_t karvelorn_old_parts(const uint32_t *machine, size_t words, const uint32_t *first, size_t first_entries,
                             const uint32_t *second, size_t second_entries, uint32_t *contents, size_t contents_words,
                             uint32_t *items, size_t items_len, uint32_t *point, uint32_t *place);

/* Numbers for a chain of modifiers that read what others of it write to modifier-this. Modifiers are taken by number,
 * and a reader with too low a number misses a write: it sees the writes of modifiers up to its number less 4 where its
 * read is early, and up to its number less 1 where it is late. A is read late in latch, invoke delay unit, one zero and
 * the two-pole and two-zero functions, and early in all others; B is always read early.
 *
 *   entries, entries_len  the modifiers in sequence, two words for each: 1 where its read is early or 0 where it is
 *                         late, then where its names end in names. A modifier that reads modifier-this both ways is
 *                         early
 *   names, names_len      the names of all entries, one after the other. Those of an entry begin where those of the
 *                         entry before it end, at 0 for the first. A name is the place, from 0 on, of an entry before
 *                         it in the list, whose write it must see
 *   numbers               gets the number of each entry, from the first on. The words past the last entry stay
 *
 * The numbers rise along the list, and an entry that is named stands at least 4 below its reader where that reads
 * early, and at least 1 below where it reads late. Of all such numbers they are the lowest, at each entry.
 *
 * Answers 0, 14 or 15. An odd number of words, a first word above 1, ends that fall or pass names_len, a last end below
 * it, and an entry that names itself, a later one or a place outside get 14, wherever in the list; then 15 says that all
 * such numbers pass 127. A refused call leaves numbers as they were. No entries and no names are answered 0.
 */
uint32_t karvelorn_chain(const uint32_t *entries, size_t entries_len, const uint32_t *names, size_t names_len,
                         uint32_t numbers[KARVELORN_MODIFIERS]);

/* Reads a bench file: the machine that it begins with, its commands, how many passes it is to be rung, and which text it
 * follows. Its lines, each ended by LF, with decimal numbers without leading zeros:
 *   text=1978 or text=old   first, if at all; without it 1978
 *   passes=N                then, once: 0 to 65535
 *   word=PLACE:VALUE        then words of the machine as it begins, on a fresh one: places 0 to 4342, values below 2^32. Of
 *                           two for one place the later holds
 *   command=XXXXXXXX        then commands, eight hexadecimal capitals; none in a file of the older text
 * A host then rings it as the program ring does, over a delay memory that is zero at first: so many passes by
 * karvelorn_ring, or karvelorn_old_ring for KARVELORN_TEXT_OLD; or each by karvelorn_pass by number, followed by
 * karvelorn_update with the commands still left, or by karvelorn_old_pass alone.
 *
 *   file, bytes             the file's bytes, and how many they are
 *   machine, words          a run for a machine, and its length: KARVELORN_WORDS. It gets a fresh machine with the words of
 *                           the file and the update ticks of its T and N; what it held is not looked at. Its words are
 *                           not judged here: question 2 of the first pass does that
 *   commands, commands_len  places for the file's commands, which it gets from the first on; places past them stay.
 *                           KARVELORN_COMMANDS are enough for every file
 *   text                    gets KARVELORN_TEXT_1978 or KARVELORN_TEXT_OLD
 *   passes                  gets the file's passes, 0 to 65535
 *   count                   gets how many commands it has
 *
 * Answers 0, 9, 13, 1 or 8, asked in this sequence: is it a bench file, is its text known, has the run for the machine its
 * length, are there places for all its commands? In a refusal both runs stay as they were and text, passes and count are 0.
 */
uint32_t karvelorn_read(const uint8_t *file, size_t bytes, uint32_t *machine, size_t words, uint32_t *commands,
                        size_t commands_len, uint32_t *text, uint32_t *passes, size_t *count);

#ifdef __cplusplus
}
#endif

#endif
