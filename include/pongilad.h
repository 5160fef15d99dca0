/* Pongilad: from one linear constraint to an interval-labelled diagram and the clauses that say the same to a SAT solver, and clauses as DIMACS
 * text.
 *
 * Link with libpongilad.a (x86-64 Linux). Each call is proved, for every input and every length, to reply and to leave the lent
 * lists as its definition says; docs/TRUST.md leads to the definitions. No call allocates, keeps a pointer or prints.
 * The encoding calls take up to about 30 KB of stack, pongilad_mark under 2 KB (measured, not proved); the other calls take next to none.
 *
 * LISTS AND LENGTHS
 *   A list is a pointer followed by its length. The length counts elements: 32-bit words for uint32_t, bytes for uint8_t,
 *   records for pongilad_node.
 *   Words are in the machine's own byte order.
 *   Any length is legal, also 0 and, for a table, lengths that are no multiple of PONGILAD_RECORD.
 *   The caller sees to it that
 *     - a pointer is not null, also where the length is 0, and is aligned for its element;
 *     - that many elements are there and are set, and may be written where the pointer is not const;
 *     - a list that may be written shares no memory with another list of the same call;
 *     - nothing else writes the lists while the call runs, nor reads those that may be written.
 *
 * WORDS
 *   The top two bits of a word are its kind, the other 30 its payload.
 *     constraint words  such as 1FFFFFFC C0000002 40040003 9FFFFFFE 60070002: 3u - 2v >= -4, u from 0 to 4, v from -2 to 5.
 *                       kind 0, the first word: the bound.
 *                       kind 3, only as the second word, or left out: the relation, 0 at most, 1 less, 2 at least, 3 greater.
 *                       With it the bound is the first word's payload less 536,870,912; without it the relation is at most and
 *                       the bound is the payload as it stands.
 *                       kind 1, a term. Bit 29 makes its coefficient negative; bits 28 to 16 are the distance d from its lower to
 *                       its upper end, 1 to 15; bits 15 to 0 the coefficient a without its sign, 1 to 65,535. There are 1 to 64.
 *                       kind 2, only right before a term, or left out: its lower end, the payload less 536,870,912, from
 *                       -1,000,000 to 1,000,000; without it the lower end is 0.
 *                       The constraint: the sum of a, or -a, times the value over the terms, each value from its lower to its
 *                       upper end, stands in the relation to the bound. A bound and terms alone: a times y, each y from 0 to its
 *                       d, add up to at most the bound.
 *     edge words        a node's number, or PONGILAD_FALSE or PONGILAD_TRUE.
 *     clause words      kind 2, a literal: bit 29 negates it, bits 28 to 0 are the Boolean, from 1.
 *                       kind 3 ends a clause: the payload is the number of its literals.
 *                       A clause list is lent without the zeros that a call left behind it: a word of 0 is refused with 11.
 *
 * THE BASE FORM, which the table, the edges and the order Booleans speak of
 *   Every constraint is brought into the form of a bound and terms alone, with y from 0 to d for each term:
 *     - at least and greater are turned round: the bound and every coefficient change their sign, and they become at most and less;
 *     - less than the bound becomes at most the bound less 1;
 *     - a term that is positive then has y = value - lower end, and a times the lower end is taken from the bound;
 *     - a term that is negative then has y = upper end - value, and a times the upper end is added to the bound.
 *   The example becomes -3u + 2v <= 4, so the first y is 4 - u, the second v + 2, and the bound 4 + 3 * 4 + 2 * 2 = 20.
 *   The new bound may be below 0. Then no values satisfy the constraint, its root is F, and there is no node.
 *
 * DIMACS TEXT, as bytes
 *   written               `p cnf V C` with V the greatest Boolean of the list (0 where it has none) and C the number of its clauses; then a line a
 *                         clause: each literal by its Boolean's number, behind a minus sign where it is negated, and a space; a 0; a newline.
 *   read                  Space, tab, carriage return and newline are blanks; a text may begin and end with them. Only a newline ends a line. Where a
 *                         line begins with c, all of it is a comment, also inside a clause; the last comment needs no newline.
 *                         The header is one line: `p`, `cnf` and two numbers, with spaces or tabs between them. The first number, up to
 *                         536,870,911, is the greatest Boolean allowed; the second, up to 18,446,744,073,709,551,615, the number of clauses.
 *                         Behind it, each behind a blank, stand literals, with a minus sign right before the number where they are negated, and a 0
 *                         behind the last literal of each clause. A clause has up to 1,073,741,823 literals. A number has no plus sign, and no 0
 *                         before other digits.
 *
 * REFUSALS, by number. Checks run in this order, but that 17 and then 18 are tried between 2 and 3, and 4 and 5 term by term;
 * 11, 12 and 13 are tried word by word; pongilad_read tries 16 before 15. For one term or word the lower number comes first. Places count
 * from 0.
 *   No.  The call refuses because                                   Place                 Lent lists afterwards
 *    1   there are no constraint words                              0                     as they were
 *    2   a word cannot stand where it stands: the first is not      the first such word;  as they were
 *        of kind 0, a later one is, one of kind 3 is not the        the number of words
 *        second, or one of kind 2 follows one of kind 2; or the     where only the end
 *        last word is of kind 2                                     is wrong
 *    3   there is no term, or there are more than the limit,        the number of words   as they were
 *        PONGILAD_TERMS or the caller's
 *    4   a distance d, without bit 29, is 0 or greater than 15      the term's word       as they were
 *    5   a coefficient is 0                                         the term's word       as they were
 *    6   the diagram has more nodes than the table has room for,    0                     all words of all three are 0
 *        or than the limit, PONGILAD_NODES or the caller's
 *    7   the diagram has more edges than the edge list has words    0                     all words of all three are 0
 *    8   more clause words are needed than the clause list has      0                     all words of all three are 0
 *   10   a value byte is above 1, or, for pongilad_propagate,       the byte              as they were
 *        above 2
 *   11   a clause word has kind 0 or 1                              the word              as they were; for
 *                                                                                         pongilad_write 0
 *   12   a literal names Boolean 0, or, for pongilad_test and       the word              as for 11
 *        pongilad_propagate, one that has no value byte
 *   13   an end word counts other than the literals before it,      the word              as for 11
 *        back to the end word before or the start
 *   14   the list stops inside a clause: literals stand behind      the list's length     as for 11
 *        the last end word
 *   15   the lent text or clause list is too short for the result   0                     all bytes or words are 0
 *   16   the text is not DIMACS                                     the first byte that   all words are 0
 *                                                                   cannot stand there;
 *                                                                   the text's length
 *                                                                   where a legal text
 *                                                                   begins with all of it
 *   17   the relation is above 3                                    1                     as they were
 *   18   a lower end is below -1,000,000 or above 1,000,000         the word              as they were
 *   19   the buffer has another length than the values              0                     as it was
 *   20   a record of the hand-in is not right; or it has none,      the first such        only read
 *        and the bound of the base form is neither below 0 nor at   record; 0 for none
 *        least the greatest sum of all terms
 *   1 to 8, 17 and 18 come from pongilad_encode and pongilad_encode_with, 1 to 5, 17, 18 and then 20 from pongilad_mark, 10 to 14 from
 *   pongilad_test, 10 to 14 and then 19 from pongilad_propagate, 11 to 15 from pongilad_write, 16 and 15 in this order from pongilad_read.
 *   No call refuses with 9. 6, 7 and 8 go by what the finished diagram needs. pongilad_write zeroes the lent text after 11 to 14 too.
 */
#ifndef PONGILAD_H
#define PONGILAD_H

#include <stddef.h>
#include <stdint.h>

#ifdef __cplusplus
extern "C" {
#endif

#define PONGILAD_FALSE UINT32_C(0xC0000000)
#define PONGILAD_TRUE UINT32_C(0xC0000001)

/* How many words a node record has. */
#define PONGILAD_RECORD 5

/* The main limits: the most terms of a constraint, and the most nodes that a table takes, however long it is. */
#define PONGILAD_TERMS 64
#define PONGILAD_NODES 65536

/* A node record as a struct: the five words of a record in the table, in their order.
 *   level         from 1
 *   lower, upper  the ends of the label, both included
 *   first         the place of the node's first edge in the edge list
 *   entering      how many edges lead to the node, 0 for the root */
typedef struct {
    uint32_t level, lower, upper, first, entering;
} pongilad_node;

/* What pongilad_encode and pongilad_encode_with reply.
 *   number  0: accepted; 1 to 8, 17 or 18: the number of the refusal
 *   place   the place of the refusal; 0 where accepted
 *   nodes   how many node records the table holds; 0 where refused
 *   edges   how many edge words the edge list holds; 0 where refused
 *   words   how many clause words the clause list holds; 0 where refused */
typedef struct {
    uint64_t number, place, nodes, edges, words;
} pongilad_encoded;

/* What pongilad_find and pongilad_find_node reply.
 *   found   1 where there is such a record, 0 where there is none
 *   number  found 1: the record's number, from 0; found 0: the gap, which is how many records are of a smaller level, or of the
 *           level with an upper end below the remainder */
typedef struct {
    uint64_t found, number;
} pongilad_found;

/* What pongilad_test replies.
 *   verdict  0: every clause has a true literal; 1: one has none; 2: refused
 *   number   verdict 1: the number of the first such clause, from 0; verdict 2: the refusal's number, 10 to 14; otherwise 0
 *   place    verdict 1: the place of that clause's first word, which in an empty clause is its end word; verdict 2: the
 *            refusal's place; otherwise 0 */
typedef struct {
    uint64_t verdict, number, place;
} pongilad_tested;

/* What pongilad_propagate replies.
 *   verdict  0: no conflict, and the buffer holds what is settled, with 2 where a Boolean stays open; 1: a conflict; 2: refused
 *   number   verdict 2: the refusal's number, 10 to 14 or 19; otherwise 0
 *   place    verdict 2: the refusal's place; otherwise 0 */
typedef struct {
    uint64_t verdict, number, place;
} pongilad_propagated;

/* What pongilad_mark replies.
 *   right   1: the hand-in is right; 0: it is not, or the constraint is refused
 *   number  right 0: the refusal's number, 1 to 5, 17, 18 or 20; otherwise 0
 *   place   right 0: the refusal's place, which for 20 is the number of the first bad record, from 0; otherwise 0 */
typedef struct {
    uint64_t right, number, place;
} pongilad_marked;

/* What pongilad_compare replies.
 *   same  1 where the bytes are those of the words, most significant byte first, exactly four for each word; otherwise 0
 *   word  same 1: 0; same 0: the number, from 0, of the first word whose bytes are not all there or are others, or words_length
 *         where every word has its bytes and more follow */
typedef struct {
    uint64_t same, word;
} pongilad_compared;

/* What pongilad_write and pongilad_read reply.
 *   number  0: done; 11 to 16: the number of the refusal
 *   place   the place of the refusal; 0 where done
 *   length  how many bytes of text, or clause words, the lent list holds; 0 where refused */
typedef struct {
    uint64_t number, place, length;
} pongilad_text;

/* Encodes the constraint of the words.
 *   table    a record of five words for each node, as in pongilad_node. Two edges of one node to another count twice.
 *            Nodes stand by level, then by lower end; a node's number is that of its record, from 0, and node 0 is the root.
 *            There is room for table_length / PONGILAD_RECORD nodes, rounded down, and for at most PONGILAD_NODES.
 *   edges    the children of each node, for y from 0 to d of its level's term, nodes in order. Those of a node
 *            end where those of the next begin, or at the reply's edges.
 *   clauses  with D the sum of all d: the order Booleans 1 to D, term by term, where Boolean (i, j), j from 1 to d, says that y of
 *            term i is below j; D + 1 is true; D + 2 is false; D + 3 + k is node k. First the order of each term's Booleans, then
 *            three single literals (true, not false, the root), then the edges of each node.
 *            The length is 3 * (d - 1) for each term, plus 6, plus 3 + 4 * d for each node of a level with domain end d.
 *            Where all clauses are true, y of a term is the number of its false order Booleans, and the value in the constraint as it
 *            was written is the lower end plus y, or the upper end less y where the base form has the term negative.
 * Accepted: every word behind the counts of the reply is 0, up to the end of each lent list. A constraint that always holds and one
 * that never does have no node: the root's literal, which is then the last but one of the clause words, is that of D + 1 or D + 2.
 * Refused: see the table above. With 327,680 table words, 1,048,576 edge words and 4,131,462 clause words nothing is refused with
 * 7 or 8, and with 6 only what has more than PONGILAD_NODES nodes. */
pongilad_encoded pongilad_encode(const uint32_t *words, size_t words_length, uint32_t *table, size_t table_length, uint32_t *edges,
                                 size_t edges_length, uint32_t *clauses, size_t clauses_length);

/* The same under the caller's limits on terms and on nodes, which refusals 3 and 6 go by; nothing else changes. A limit above the main one,
 * PONGILAD_TERMS or PONGILAD_NODES, counts as the main one. 0 is legal: with most_terms 0 every constraint is refused with 3, if not with
 * 1, 2, 17 or 18; with most_nodes 0 only a constraint without nodes is accepted.
 * With limits t and n, up to the main ones, lists of 5 * n table words, 16 * n edge words and 42 * t + 63 * n + 6 clause words are long
 * enough: nothing is refused with 7 or 8, and with 6 only what has more than n nodes.
 * What is accepted so, pongilad_encode accepts in lists of the same lengths, with the same counts and the same words in all three. */
pongilad_encoded pongilad_encode_with(uint64_t most_terms, uint64_t most_nodes, const uint32_t *words, size_t words_length, uint32_t *table,
                                      size_t table_length, uint32_t *edges, size_t edges_length, uint32_t *clauses, size_t clauses_length);

/* Finds the first record of the level whose label holds the remainder: lower end <= remainder <= upper end; or counts the gap.
 * The last two words of a record make no difference, and words behind the last full record are not read. Every table is legal, of
 * any length and also one that no encoder wrote; words of 0 behind the nodes are records of level 0 with the label 0 to 0, and the
 * gap counts them (at level 0 where the remainder is above 0). In the nodes that pongilad_encode counts, lent without what lies
 * behind them, the gap is the number that a node with this remainder would have. */
pongilad_found pongilad_find(const uint32_t *table, size_t table_length, uint32_t level, uint32_t remainder);

/* Finds the same in a table that is a list of records: nodes_length counts records, not words. The reply is that of pongilad_find
 * on the flat table of the same words. A table that pongilad_encode wrote may be lent as (const pongilad_node *)table with
 * table_length / PONGILAD_RECORD records. */
pongilad_found pongilad_find_node(const pongilad_node *nodes, size_t nodes_length, uint32_t level, uint32_t remainder);

/* Tests the clauses under the values: byte v - 1 is the value of Boolean v, 0 or 1.
 * All bytes and all words are checked before any clause is tested. A clause needs one true literal, so an empty one, which is nothing but the end word
 * 0xC0000000, is false: the reply names it where every clause before it is true. */
pongilad_tested pongilad_test(const uint8_t *values, size_t values_length, const uint32_t *clauses, size_t clauses_length);

/* Fills the buffer `settled` with all that unit propagation settles from the values: byte v - 1 of both is Boolean v, 0 false, 1 true, 2 open.
 *   values   a byte for each Boolean of the clauses: D + 2 + nodes of them for the list of an encoding call with that reply. More may be
 *            lent; those that no clause names come out as they went in.
 *   settled  as many bytes, not the values themselves; what it holds before makes no difference. Afterwards it holds, with verdict 0, what
 *            is given and what is settled, and 2 for what stays open; with verdict 1 the values; with verdict 2 what it held.
 * A clause all of whose literals but one are false settles that one, again and again, until nothing more follows; T, F and the nodes are
 * Booleans like the others. A literal that a clause has twice counts once, and a clause with an open Boolean both ways settles nothing.
 * Where all literals of a clause are false, as always in an empty one, there is a conflict. The order of working makes no difference.
 * On the clauses that pongilad_encode wrote, with T, F and all nodes open, this is all that can be known: there is a conflict where no
 * completion of the order Booleans obeys the constraint and the order rule, that (i, j) implies (i, j + 1); and otherwise just those order
 * Booleans are settled on which all such completions agree. On any other list, also that of two constraints put together, verdict 0 does
 * not say that there is a solution.
 * All bytes and all words are checked first. No other memory is used. Besides the check, a list of the encoder takes a few passes over its
 * clauses, and any list at most two more than there are open values: a chain of 100,000 implications took a millisecond in the order of the
 * chain, and 24 seconds in a random order. */
pongilad_propagated pongilad_propagate(const uint8_t *values, size_t values_length, const uint32_t *clauses, size_t clauses_length,
                                       uint8_t *settled, size_t settled_length);

/* Marks a drawing of the constraint's diagram: whether the table's records, with their edges, are right, or which is the first that is not.
 * A record is right where
 *   - its level is from 1 to the number of terms, and its lower end is not above its upper;
 *   - its d + 1 edges lie in the edge list from its first place on;
 *   - each edge is PONGILAD_FALSE, PONGILAD_TRUE or the number of a record one level down (any other word from 0x40000000 on is no edge);
 *   - every number of its label, less a times j, lies in the label of child j. T's label is R and above, F's everything below 0, with R the
 *     greatest sum of the terms behind the record's own (0 at the last level), also where an edge to T or F skips levels.
 * Record 0 must also be at level 1 and hold the bound of the base form; a record numbered PONGILAD_NODES or more is wrong. Without records
 * the hand-in is right where that bound is below 0 or at least the greatest sum of all terms.
 * Each record is judged by itself. Nodes may repeat, in any order, and labels may be narrower than the encoder's; the fifth word of a record,
 * words behind the last full record, and edges that no record has, make no difference. The counted part of a table that pongilad_encode
 * wrote, table_length = nodes * PONGILAD_RECORD, is right with its edge list, the whole or as far as it is counted; zeros behind the nodes
 * are records of level 0, which are not right.
 * The clauses of a right drawing, with record 0 as the root (without records T, or F where the bound is below 0), admit just the solutions.
 * Records that are pongilad_node structs may be lent as (const uint32_t *)nodes with nodes_length * PONGILAD_RECORD words.
 * Takes one look at each record and at each of its edges, with the record that the edge leads to, up to the first bad record. */
pongilad_marked pongilad_mark(const uint32_t *words, size_t words_length, const uint32_t *table, size_t table_length, const uint32_t *edges,
                              size_t edges_length);

/* Writes a clause list as DIMACS text, with bytes of 0 behind it up to the end of the lent text. The bytes of 0 are no part of the text: pongilad_read is
 * lent the length of the reply. The whole list is checked before a byte is written; 11 * clauses_length + 18 bytes are room enough for any list. */
pongilad_text pongilad_write(const uint32_t *clauses, size_t clauses_length, uint8_t *text, size_t text_length);

/* Reads DIMACS text into a clause list, with words of 0 behind it up to the end of the lent list. Any legal text is read, not only what pongilad_write
 * writes; every legal list that was written is restored. A text says at most a word for each two bytes. */
pongilad_text pongilad_read(const uint8_t *text, size_t text_length, uint32_t *clauses, size_t clauses_length);

/* Compares a file's bytes with words, which may be of any kind. Nothing is refused: any two lengths may be lent together. */
pongilad_compared pongilad_compare(const uint8_t *bytes, size_t bytes_length, const uint32_t *words, size_t words_length);

#ifdef __cplusplus
}
#endif

#endif
