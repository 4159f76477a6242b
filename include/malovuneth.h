/* malovuneth.h: lowering contract sheets to program sheets, and verifying
 * program sheets. C99, or C++. Version 0.3.0.
 *
 * Link with libmalovuneth.a, an archive for x86-64 Linux that
 * `./malovuneth archive` writes to target/staticlib. Of other libraries it
 * needs memcpy and memset alone. It has further functions, for tests; they are
 * no part of this interface.
 *
 * malovuneth_lower and malovuneth_verify take any bytes. They end on all of
 * them, and their answers are proved (docs/AUDIT.md). They keep nothing between
 * calls, have no global data and allocate nothing, so that any number of threads
 * may call them at once, on memory of their own; a sheet may be lent to several
 * calls at once.
 *
 * What the caller sees to, for each call:
 * - a pointer and the length behind it name memory that is there until the
 *   call returns, and that nobody else writes meanwhile; the numbers are six
 *   of size_t, aligned as such, and the bytes need no alignment;
 * - the memories that are lent to one call do not overlap;
 * - the stack has room: malovuneth_lower takes up to some 302 kB (on a sheet
 *   that nests as deep as its length allows and is then refused), and
 *   malovuneth_verify less than 1 kB (docs/FIGURES.md; measured).
 *
 * Where a length is 0, the pointer before it is not used, and may be NULL.
 *
 * docs/FORMAT.md of the project has both sheets record by record, what lowering
 * writes, what verifying asks, and an example of each number.
 */
#ifndef MALOVUNETH_H
#define MALOVUNETH_H

#include <stddef.h>
#include <stdint.h>

#define MALOVUNETH_VERSION_MAJOR 0
#define MALOVUNETH_VERSION_MINOR 3
#define MALOVUNETH_VERSION_PATCH 0
#define MALOVUNETH_VERSION "0.3.0"
/* major * 10000 + minor * 100 + patch, as malovuneth_version gives it. */
#define MALOVUNETH_VERSION_NUMBER 300

/* The most bytes of a sheet of either kind. An output of so many bytes holds
 * every program sheet; it may be longer or shorter. */
#define MALOVUNETH_MOST_BYTES 32768

/* How many numbers an answer has: its own, and five for its details. */
#define MALOVUNETH_NUMBERS 6

/* The first number of an answer. Before each is said what it is given for, and
 * after the semicolon which details follow it, in their order. All numbers
 * behind the details are 0. A place is a byte of the sheet, from 0. A type is
 * two numbers: its tag, and its name, which is 0 unless the tag is
 * MALOVUNETH_TYPE_STRUCT. */
enum malovuneth_answer {
  /* accepted; of lowering: the length of the program sheet */
  MALOVUNETH_ACCEPTED = 0,

  /* Lowering and verifying. */

  /* sheet over 32,768 bytes */
  MALOVUNETH_SHEET_TOO_LONG = 1,

  /* Lowering, in this order: 3, 4, 10 to 30 as they are met, 31. */

  /* lowest byte where a record should start, or surplus begins, and no record
   * with allowed kind, fitting length and valid fields starts; place */
  MALOVUNETH_CONTRACT_FORM = 3,
  /* first record that is the 65th function, 65th struct, 257th storage field, a
   * struct of over 64 fields, a function of over 16 parameters, a Call or Emit
   * of over 16 arguments, or has depth 41; place */
  MALOVUNETH_CONTRACT_LIMIT = 4,
  /* UndefinedVariable; name */
  MALOVUNETH_UNDEFINED_VARIABLE = 10,
  /* UndefinedFunction; name */
  MALOVUNETH_UNDEFINED_FUNCTION_NAME = 11,
  /* UnresolvedType; struct */
  MALOVUNETH_UNRESOLVED_TYPE = 12,
  /* field access on non-struct */
  MALOVUNETH_FIELD_OF_NON_STRUCT = 13,
  /* no such field; struct, field */
  MALOVUNETH_NO_SUCH_FIELD = 14,
  /* struct literal */
  MALOVUNETH_STRUCT_LITERAL = 15,
  /* MappingRead */
  MALOVUNETH_MAPPING_READ = 16,
  /* MappingWrite */
  MALOVUNETH_MAPPING_WRITE = 17,
  /* void expression used as value */
  MALOVUNETH_VOID_AS_VALUE = 18,
  /* poseidon not with 2 arguments */
  MALOVUNETH_POSEIDON_ARGUMENTS = 19,
  /* verify_merkle_proof */
  MALOVUNETH_MERKLE_PROOF = 20,
  /* a function's 257th block or 257th local would be made; function position,
   * from 0 */
  MALOVUNETH_TOO_MANY_BLOCKS_OR_LOCALS = 30,
  /* finished sheet over 32,768 or output length */
  MALOVUNETH_PROGRAM_TOO_LONG = 31,

  /* Verifying: 40, then 41 to 50 as they are met. The details of 41 to 50 begin
   * with the function's name. */

  /* program sheet, as 3; place */
  MALOVUNETH_PROGRAM_FORM = 40,
  /* UndefinedValue; function's name, value id */
  MALOVUNETH_UNDEFINED_VALUE = 41,
  /* DuplicateValueDef; function's name, value id */
  MALOVUNETH_DUPLICATE_VALUE_DEF = 42,
  /* UndefinedBlock; function's name, block id */
  MALOVUNETH_UNDEFINED_BLOCK = 43,
  /* MissingTerminator; function's name, block id */
  MALOVUNETH_MISSING_TERMINATOR = 44,
  /* ReturnTypeMismatch; function's name, expected type (two numbers), type got
   * (two numbers: MALOVUNETH_NONE and 0 if none) */
  MALOVUNETH_RETURN_TYPE_MISMATCH = 45,
  /* BranchConditionNotBool; function's name, value id, type (two numbers) */
  MALOVUNETH_BRANCH_CONDITION_NOT_BOOL = 46,
  /* OperandTypeMismatch; function's name, left type (two numbers), right type
   * (two numbers) */
  MALOVUNETH_OPERAND_TYPE_MISMATCH = 47,
  /* UndefinedLocal; function's name, local id */
  MALOVUNETH_UNDEFINED_LOCAL = 48,
  /* UndefinedFunction; function's name, id of the function that is called */
  MALOVUNETH_UNDEFINED_FUNCTION_ID = 49,
  /* result id on an instruction that gives none; function's name, kind of the
   * instruction (60 to 81) */
  MALOVUNETH_RESULT_ON_NONE = 50
};

/* The tags of types. */
enum malovuneth_type {
  MALOVUNETH_TYPE_U64 = 0,
  MALOVUNETH_TYPE_BOOL = 1,
  MALOVUNETH_TYPE_FIELD = 2,
  MALOVUNETH_TYPE_STRUCT = 3,
  MALOVUNETH_TYPE_VOID = 4
};

/* The tag that 45 gives for no type. */
#define MALOVUNETH_NONE 65535

#ifdef __cplusplus
extern "C" {
#endif

/* Lowers a contract sheet: `length` bytes at `sheet`, which are only read. All
 * `room` bytes at `out` are written: on acceptance the program sheet and then
 * zeros, on a refusal zeros. All six numbers are written: 0 and the program
 * sheet's length, or the refusal's number and its details; zeros behind them.
 * Returns the first of them. */
size_t malovuneth_lower(const uint8_t *sheet, size_t length, uint8_t *out,
                        size_t room, size_t numbers[MALOVUNETH_NUMBERS]);

/* Verifies a program sheet: `length` bytes at `sheet`, which are only read. A
 * sheet that was lowered is `out` up to the length that lowering gave, without
 * the zeros behind it. All six numbers are written: 0, or the refusal's number
 * and its details; zeros behind them. Returns the first of them. */
size_t malovuneth_verify(const uint8_t *sheet, size_t length,
                         size_t numbers[MALOVUNETH_NUMBERS]);

/* The version of the archive that was linked: MALOVUNETH_VERSION_NUMBER, if it
 * is this header's. */
size_t malovuneth_version(void);

#ifdef __cplusplus
}
#endif

#endif
