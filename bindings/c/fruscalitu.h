/* The proved calls of Fruscalitu for C: crates/exports/out/libexports.a, which `rt lib --cpu x86-64`
 * builds in crates/exports.
 *
 * Each function has a proved statement in crates/exports. What C itself must keep, since no proof sees it:
 *
 * - A slice is passed as two arguments, an address and a count of elements. The address is never NULL, not even beside
 *   a count of 0, and that many elements can be read there, and written where it is not const.
 * - The slices that are written (output, detail, answer) overlap neither one another nor the image.
 * - The caller has FRUSCALITU_STACK_BYTES of stack left: nothing checks it, and a call that runs past it kills the process.
 * - The archive is for x86-64 Linux, and asks of C's library memcpy and memset. (Without --cpu it is for x86-64-v2 alone.)
 *
 * Nothing is kept after a call, nothing is allocated, there is no state: threads may call at once, each with its own
 * slices. Every image, number and count has an answer; nothing is required of the bytes.
 */
#ifndef FRUSCALITU_H
#define FRUSCALITU_H

#include <stdbool.h>
#include <stddef.h>
#include <stdint.h>

#ifdef __cplusplus
extern "C" {
#endif

/* The absent name, and the result where the answer's block is short. */
#define FRUSCALITU_NONE UINT32_C(4294967295)

/* The stack in bytes that a call needs of its caller, on x86-64 Linux: `tools/stack` measures what the stored cases need,
 * and `tools/stack test`, a part of the gate, asks all of them on a stack of exactly this size. */
#define FRUSCALITU_STACK_BYTES 786432

/* The least detail that is not answered with 1. */
#define FRUSCALITU_DETAIL_BYTES 576

/* The words of an answer, by their places in the block. */
enum {
    FRUSCALITU_NUMBER,   /* 0 accepted, 1 to 24 as below */
    FRUSCALITU_FUNCTION, /* name row of the function, or FRUSCALITU_NONE */
    FRUSCALITU_SECOND,   /* name row of the second name, or FRUSCALITU_NONE */
    FRUSCALITU_LENGTH,   /* bytes written to the output; under 24 the bytes needed; else 0 */
    FRUSCALITU_VISITS,   /* of an accepted answer the type-expression nodes read; else 0 */
    FRUSCALITU_WORDS
};

/* Whether the image is readable. Where it is not, the two calls below answer 2, or 1 where the detail is under 576 bytes. Writes nothing. */
bool fruscalitu_readable(const uint8_t *image, size_t image_length);

/* The signatures that the trait of an implementation asks for.
 *
 * image    the schema image
 * number   the implementation's definition row
 * output   on acceptance the output words are written from its start, each as four bytes, the low one first; the rest,
 *          and under a refusal all of it, stays as found
 * detail   only 6 writes to it, from its start, words as in the output; the rest stays as found
 * answer   the five words above are written from its start; the rest stays as found
 *
 * Gives back the first word of the answer. Where the answer has fewer than FRUSCALITU_WORDS words nothing is written
 * and FRUSCALITU_NONE is given back, which is no number of an answer.
 *
 * The numbers, in the order in which they are asked; each is given exactly when
 *
 *   1   detail has fewer than FRUSCALITU_DETAIL_BYTES bytes
 *   2   the image breaks a rule or a bound; a name or a string that is not UTF-8 does
 *   3   the number is no implementation's row
 *   4   UnknownTrait: the trait is absent or not a trait's row; second: the trait's name
 *   6   SignatureMismatch of type-argument counts; function: the trait's name; detail: 0, expected, found
 *   then for each function of the trait in order
 *   8   a type is too large: over 1,024 visits, or over 64 words on the way; function
 *   7   UnresolvedType: poison anywhere in a parameter or the return; function
 *   and last
 *   24  the output is too short; the length is the bytes needed
 *   0   otherwise
 *
 * Output words: the count of functions, in the trait's order; each has its name, the count of its parameters, each
 * parameter's name and type, then 0, or 1 and the type that it returns.
 */
uint32_t fruscalitu_expected_signatures(const uint8_t *image, size_t image_length, uint32_t number, uint8_t *output,
                                        size_t output_length, uint8_t *detail, size_t detail_length, uint32_t *answer,
                                        size_t answer_length);

/* The functions of an implementation, checked against its trait and typed.
 *
 * Parameters, result and buffers are as above, but that 6, 20, 21 and 22 write detail. The numbers, in their order:
 *
 *   1 to 4  as above
 *   5   InvalidTarget: the target is not Named to a message
 *   6   of type-argument counts, then 8 and 7 for each function of the trait, as above
 *   9   DuplicateFunction, at the first repeat; function
 *   10  ExtraFunction, at the first stranger; function
 *   then for each function of the trait in order
 *   11  MissingFunction; function
 *   6   SignatureMismatch; function; detail is a kind, what is expected, what is found: 1 parameter counts; 2 parameter
 *       names; 3 parameter types (second: the parameter); 4 returns, each 0, or 1 and a type
 *   12  ExternalFunction; function
 *   and as its body is read
 *   13  UnsupportedCall, 14 UnsupportedMethodCall; function, second: what is called
 *   15  UnsupportedExpressionStatement; function
 *   16  UnknownLocal, 17 UnknownField, 18 DuplicateLocal; function, second: the name
 *   19  InvalidAssignmentTarget; function
 *   20  TypeMismatch; function; detail: context, expected type, actual type. Contexts: 0 integer literal, 1 unsigned
 *       literal, 2 float literal, 3 local binding, 4 return, 5 receiver field assignment, 6 binary, 7 unary
 *   21  InvalidOperator; function; detail: operator (0 to 9 as in the image, 10 is -, 11 is !), type
 *   22  ReturnMismatch; function; detail: 0 void gives a value, 1 value missing, 2 no return at the end
 *   23  StatementsAfterReturn; function
 *   and last
 *   24  the output is too short; the length is the bytes needed
 *   0   otherwise
 *
 * Output words: as above, and each function's return is followed by the count of its statements and by them. A statement
 * is 1 Let name, type, value; 2 Return 0, or 1 and a value; 3 Assign field, value. A value is its type, then: 0 Int, 1
 * UInt, 2 Float (two words of bits, the low one first); 3 Bool 0 or 1; 4 String row; 5 Local name; 6 SelfRef; 7 a field
 * of SelfRef; 10 Binary operator, value, value; 11 Unary 0 Neg or 1 Not, value.
 */
uint32_t fruscalitu_project_impl(const uint8_t *image, size_t image_length, uint32_t number, uint8_t *output,
                                 size_t output_length, uint8_t *detail, size_t detail_length, uint32_t *answer,
                                 size_t answer_length);

#ifdef __cplusplus
}
#endif

#endif
