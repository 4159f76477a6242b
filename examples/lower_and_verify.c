/* Lowers a contract sheet, verifies the program sheet that came out, and prints
 * both answers, a line each.
 *
 *     lower_and_verify [FILE]      without FILE: standard input
 *
 * Exit status: 0 both accepted, 1 refused, 2 the sheet cannot be read. */
#include <stdio.h>

#include "malovuneth.h"

/* What each number means, and how many details follow it: malovuneth.h. */
static const struct {
  size_t number, details;
  const char *meaning;
} MEANINGS[] = {
    {MALOVUNETH_SHEET_TOO_LONG, 0, "sheet over 32,768 bytes"},
    {MALOVUNETH_CONTRACT_FORM, 1, "no fitting record; place"},
    {MALOVUNETH_CONTRACT_LIMIT, 1, "a record past a limit; place"},
    {MALOVUNETH_UNDEFINED_VARIABLE, 1, "UndefinedVariable; name"},
    {MALOVUNETH_UNDEFINED_FUNCTION_NAME, 1, "UndefinedFunction; name"},
    {MALOVUNETH_UNRESOLVED_TYPE, 1, "UnresolvedType; struct"},
    {MALOVUNETH_FIELD_OF_NON_STRUCT, 0, "field access on non-struct"},
    {MALOVUNETH_NO_SUCH_FIELD, 2, "no such field; struct, field"},
    {MALOVUNETH_STRUCT_LITERAL, 0, "struct literal"},
    {MALOVUNETH_MAPPING_READ, 0, "MappingRead"},
    {MALOVUNETH_MAPPING_WRITE, 0, "MappingWrite"},
    {MALOVUNETH_VOID_AS_VALUE, 0, "void expression used as value"},
    {MALOVUNETH_POSEIDON_ARGUMENTS, 0, "poseidon not with 2 arguments"},
    {MALOVUNETH_MERKLE_PROOF, 0, "verify_merkle_proof"},
    {MALOVUNETH_TOO_MANY_BLOCKS_OR_LOCALS, 1,
     "257th block or local; function position, from 0"},
    {MALOVUNETH_PROGRAM_TOO_LONG, 0,
     "finished sheet over 32,768 or output length"},
    {MALOVUNETH_PROGRAM_FORM, 1, "no fitting record; place"},
    {MALOVUNETH_UNDEFINED_VALUE, 2, "UndefinedValue; function, id"},
    {MALOVUNETH_DUPLICATE_VALUE_DEF, 2, "DuplicateValueDef; function, id"},
    {MALOVUNETH_UNDEFINED_BLOCK, 2, "UndefinedBlock; function, id"},
    {MALOVUNETH_MISSING_TERMINATOR, 2, "MissingTerminator; function, id"},
    {MALOVUNETH_RETURN_TYPE_MISMATCH, 5,
     "ReturnTypeMismatch; function, tag and name of the expected type, of the "
     "type got"},
    {MALOVUNETH_BRANCH_CONDITION_NOT_BOOL, 4,
     "BranchConditionNotBool; function, id, tag and name of its type"},
    {MALOVUNETH_OPERAND_TYPE_MISMATCH, 5,
     "OperandTypeMismatch; function, tag and name of the left type, of the "
     "right type"},
    {MALOVUNETH_UNDEFINED_LOCAL, 2, "UndefinedLocal; function, id"},
    {MALOVUNETH_UNDEFINED_FUNCTION_ID, 2, "UndefinedFunction; function, id"},
    {MALOVUNETH_RESULT_ON_NONE, 2,
     "result id on an instruction that gives none; function, kind"},
};

static void print_refusal(const size_t numbers[MALOVUNETH_NUMBERS]) {
  size_t i, k;
  printf("refused, %zu", numbers[0]);
  for (i = 0; i < sizeof MEANINGS / sizeof MEANINGS[0]; i++) {
    if (MEANINGS[i].number != numbers[0]) continue;
    printf(" (%s)", MEANINGS[i].meaning);
    for (k = 1; k <= MEANINGS[i].details; k++)
      printf("%s %zu", k == 1 ? ":" : "", numbers[k]);
  }
  printf("\n");
}

int main(int count, char **words) {
  /* One byte more than a sheet may have: a longer one is then refused with 1. */
  static uint8_t sheet[MALOVUNETH_MOST_BYTES + 1];
  static uint8_t program[MALOVUNETH_MOST_BYTES];
  size_t lowered[MALOVUNETH_NUMBERS], verified[MALOVUNETH_NUMBERS];
  size_t length;
  FILE *file = count < 2 ? stdin : fopen(words[1], "rb");

  if (file == NULL) {
    perror(words[1]);
    return 2;
  }
  length = fread(sheet, 1, sizeof sheet, file);
  if (ferror(file)) {
    perror(count < 2 ? "standard input" : words[1]);
    return 2;
  }

  printf("lowering: ");
  if (malovuneth_lower(sheet, length, program, sizeof program, lowered) !=
      MALOVUNETH_ACCEPTED) {
    print_refusal(lowered);
    printf("verifying: not asked, there is no program\n");
    return 1;
  }
  printf("accepted, %zu bytes\n", lowered[1]);

  printf("verifying: ");
  if (malovuneth_verify(program, lowered[1], verified) != MALOVUNETH_ACCEPTED) {
    print_refusal(verified);
    return 1;
  }
  printf("accepted\n");
  return 0;
}
