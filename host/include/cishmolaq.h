/* The entries over a class text and the lock machine, for C: what each function needs, what it answers, and every number
 * it can give. `rt lib` in crates/abi proves the functions and writes crates/abi/out/libabi.a; link that file, nothing else
 * is needed.
 *
 * A slice is a pointer and the count of its elements. Every call needs, and nothing checks:
 *  - no pointer is null, not even one with the count 0; each is aligned for its elements, and all elements are set;
 *  - what is written (no `const`) overlaps nothing else that the same call is lent;
 *  - while the call runs, no one else writes what it is lent, or reads what it writes;
 *  - 96 KiB of free stack.
 * A text is never altered, and need not be a good one: any bytes get an answer. No call keeps a pointer, allocates, or
 * touches memory that it is not lent. Calls on different memory may run at the same time. Every call ends.
 * *detail, *line and *size are places for a result, and every call writes them; what else a call is lent is as it was where the
 * call gives a number (but for 40 and 41).
 *
 * Lines are numbered from 1, statements from 0. The numbers of a text's own fault, always tested before any other:
 *   11  text longer than 32,768 bytes (line 0)
 *   12  a line in no allowed form or place, a last line without LF, or a missing `end` (one past the last line)
 *   13  a name repeated where it must be new
 *   14  unknown class, field or method
 *   15  two parents bring different fields of one name
 *   16  a prefix class that is known, but no proper ancestor
 *   17  too many classes, objects, fields, methods, parents, statements or values
 */
#ifndef CISHMOLAQ_H
#define CISHMOLAQ_H

#include <stddef.h>
#include <stdint.h>

#ifdef __cplusplus
extern "C" {
#endif

/* The longest text, in bytes. */
#define CISHMOLAQ_LONGEST_TEXT 32768
/* No text has a longer image, prints more, or has more values: buffers of these sizes always do. */
#define CISHMOLAQ_LONGEST_IMAGE 40992
#define CISHMOLAQ_LONGEST_TABLES 51200
#define CISHMOLAQ_MOST_VALUES 2048

/* The verdict on a text.
 * Answers 0 if it is accepted, *line being 0; else 11 to 17, *line being the line of the fault. */
uint32_t cishmolaq_check(const uint8_t *text, size_t text_length, size_t *line);

/* Writes the image of a text into the front of `image`; what lies past it is left as it was. The image begins with four pairs,
 * each the offset and the length of a part; its numbers have 32 bits, the lowest byte first. The parts follow without gaps:
 *   1. for each statement in text order its place in the text and its length, LF excluded;
 *   2. for each class and method, in order, a read mask and a write mask, bit k being field k;
 *   3. for each class and method a mask whose bit j says that it commutes with method j of the class;
 *   4. for each class and method an add mask, of the fields that it adds to and neither reads nor sets.
 * A field's bit is set in at most one of a method's read, write and add masks.
 * Answers 0, *detail being the image's length in bytes; or, with nothing written,
 *   11 to 17, *detail being the line;
 *   21  the buffer is shorter than the image, *detail being 0. */
uint32_t cishmolaq_compile(const uint8_t *text, size_t text_length, uint8_t *image, size_t image_length, size_t *detail);

/* A statement by its count, as a part of the text: it begins at text + the answer and has *size bytes, LF excluded.
 * The part lies within the text. Where the look-up is refused the answer and *size are both 0: ask cishmolaq_statement_fault. */
size_t cishmolaq_statement(const uint8_t *text, size_t text_length, uint32_t count, size_t *size);

/* The number of looking up that statement.
 * Answers 0 if the text has it, *line being 0; or
 *   11 to 17, *line being the line;
 *   23  the text has no more than `count` statements, *line being 0. */
uint32_t cishmolaq_statement_fault(const uint8_t *text, size_t text_length, uint32_t count, size_t *line);

/* Writes the text's starting values, object by object.
 * Answers 0, all values being written and *line being 0; or, with nothing written,
 *   11 to 17, *line being the line;
 *   22  `value_count` is not the count of all objects' fields, *line being 0. */
uint32_t cishmolaq_starting_values(const uint8_t *text, size_t text_length, uint32_t *values, size_t value_count, size_t *line);

/* Writes what `tables` prints for a text (a line for each class and method, or one `refused` line) into the front of
 * `out`; what lies past it is left as it was.
 * Answers 0, *detail being the length of what is printed; or, with nothing written,
 *   21  the buffer is shorter than what is printed, *detail being 0. */
uint32_t cishmolaq_print_tables(const uint8_t *text, size_t text_length, uint8_t *out, size_t out_length, size_t *detail);

/* ---- The lock machine
 *
 * A machine is a text, a state and a list of values, all lent to each call. Start fills the state; from then on the caller
 * passes the same three, unaltered by anyone else, to every call. The state's words mean nothing to the caller
 * (docs/STATE.md has them). The values may be read between calls: object by object, each object's fields in order.
 *
 * Slots 0 to 7 each hold at most one open transaction. A send to a closed slot opens it, whether it is granted or waits; commit,
 * abort and 41 close it.
 *
 * A send clashes with another slot if one of its locks clashes with a lock that the slot holds, or with a lock of a send by which the
 * slot waits. A send that clashes is told 40 and joins the line of waiting sends, the last there. A send whose locks its slot got by
 * earlier sends is granted, whoever waits. When a transaction ends, by commit, abort or 41, the line is gone through once from its
 * front: a waiting send starts if it clashes with no lock that another slot holds and with no send that still waits ahead of it. It
 * then has its locks, and its message is at its start. The call that ended the transaction says nothing of it; the slot that waited
 * learns of it by its next call, which does not get 37. Until then abort is the one call that the slot can make: it withdraws the
 * send and undoes the transaction.
 *
 * A slot waits for another one if its waiting send clashes with a lock that the other holds, or with a send by which the other waits
 * ahead of it. A send that would close a circle of waits, so that its slot would wait for itself by way of others, is told 42 in place
 * of joining the line. So whenever some transaction is open, at least one does not wait.
 *
 * Places are numbered from 0: objects and classes in text order, methods in the method order of the object's class or of the named
 * class.
 *
 * Every call answers a number and sets *detail:
 *    0  done (a send: granted)
 *    1  going
 *    2  the message's answer is in *detail
 *   21  `state_words` is below CISHMOLAQ_STATE_WORDS
 *   24  text, values and state do not fit: one names a place or a name that another lacks, or a limit is passed
 *   31  slot above 7
 *   32  slot not open (step, commit, abort)
 *   34  message running (send, commit)
 *   35  no message running (step)
 *   36  no such object, class or method (send)
 *   37  the slot waits (send, step, commit)
 *   40  the send clashes and waits in line; the lowest slot that it clashes with, holder or waiter, is in *detail
 *   41  stopped; the transaction is undone and its slot is closed
 *   42  the send clashes and would close a circle of waits: it does not wait, and no slot is named (send)
 * *detail is 0 beside any number but 2 and 40. 21 is tested first, then 24 as far as lengths, the mark of a start and the state's counts
 * (of classes, statements, objects and waiting slots) show it, then 31, 32, 37, 34, 35 and 36 in this order, then 42 and 40. With 21 to 37
 * and 42 nothing is altered. With 40 the slot is open and waits; the values, all locks and every other slot are as they were. 21 and 24 are
 * given only where a call is lent something other than start and the calls left. On such memory a call gives 24 or goes on by the rules on
 * what it finds; it ends, and touches nothing but what it is lent. There 24 may also come before 32 to 37, where a word that these tests
 * read is out of range (a slot's phase, an object's class), or after them, where the call comes upon such a word or name later; and a waiting
 * send whose words name no target or no method goes on waiting.
 */

/* The length of a state in words of 32 bits, the same for every text; a longer one is good too, and its rest is left alone. */
#define CISHMOLAQ_STATE_WORDS 28961

/* Whom a send names. */
#define CISHMOLAQ_OBJECT 0 /* an object */
#define CISHMOLAQ_CLASS 1  /* a class's own objects */
#define CISHMOLAQ_DOMAIN 2 /* the objects of a class and of all its descendants */

/* Starts a machine on a text and a list of values, which is taken as it is: fills the state, with all slots closed.
 * Answers 0, *line being 0; or, with nothing written,
 *   11 to 17, *line being the line;
 *   21  the state is too short, *line being 0;
 *   22  `value_count` is not the count of all objects' fields, *line being 0. */
uint32_t cishmolaq_start(const uint8_t *text, size_t text_length, const uint32_t *values, size_t value_count, uint32_t *state,
                         size_t state_words, size_t *line);

/* Sends the method at a place, with an argument, to the target with this kind and number. A granted send has its locks until
 * commit or abort (or 41), and its message is at its start. With 40 it waits in line, and there is no need to send it again. With 42
 * it is as if it had not been sent; it may be sent again once another slot of the circle has ended, and until the sender has ended those
 * that wait for it go on waiting. Any kind above 2 names nothing: 36. A closed slot is opened by 0 and by 40, and stays closed with every
 * other number.
 * Answers 0; or 21, 24, 31, 34, 36, 37, 40, 42. */
uint32_t cishmolaq_send(const uint8_t *text, size_t text_length, uint32_t *state, size_t state_words, const uint32_t *values,
                        size_t value_count, uint32_t slot, uint32_t kind, uint32_t number, uint32_t method, uint32_t argument,
                        uint32_t *detail);

/* Runs one statement of the slot's message, or ends a body.
 * Answers 1, 2 or 41; or 21, 24, 31, 32, 35, 37. 41 starts the waiting sends that may start. */
uint32_t cishmolaq_step(const uint8_t *text, size_t text_length, uint32_t *state, size_t state_words, uint32_t *values,
                        size_t value_count, uint32_t slot, uint32_t *detail);

/* Closes the slot, leaves the values, and starts the waiting sends that may start.
 * Answers 0; or 21, 24, 31, 32, 34, 37. */
uint32_t cishmolaq_commit(const uint8_t *text, size_t text_length, uint32_t *state, size_t state_words, const uint32_t *values,
                          size_t value_count, uint32_t slot, uint32_t *detail);

/* Undoes the transaction, withdraws its send where that waits, closes the slot, and starts the waiting sends that may start. From a
 * field that the transaction only added to, its additions are taken back,
 * modulo 4,294,967,296; what others added to it stays. A field that the transaction set gets the value right before its first
 * set, less what the transaction had added to it until then.
 * Answers 0; or 21, 24, 31, 32. */
uint32_t cishmolaq_abort(const uint8_t *text, size_t text_length, uint32_t *state, size_t state_words, uint32_t *values,
                         size_t value_count, uint32_t slot, uint32_t *detail);

#ifdef __cplusplus
}
#endif

#endif
