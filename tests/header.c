/* What include/malovuneth.h says of the memory that is lent, of what is returned
 * and of the version, tried; C and C++.
 * Exit status 0, or 1 and the lines of the checks that failed. */
#include "malovuneth.h"

#include <stdio.h>
#include <string.h>

static int failures = 0;

#define CHECK(fact) \
  ((fact) ? (void)0 : (void)(failures++, printf("line %d: %s\n", __LINE__, #fact)))

static const uint8_t P1[] = {8, 0, 0, 0, 1, 0, 10, 0};
static const uint8_t P1_PROGRAM[] = {6, 0, 0, 0, 50, 0};

/* `number` was returned, and the numbers are `number`, `detail` and four zeros. */
static int are(size_t returned, const size_t *numbers, size_t number,
               size_t detail) {
  size_t expected[MALOVUNETH_NUMBERS] = {0};
  expected[0] = number;
  expected[1] = detail;
  return returned == number && memcmp(numbers, expected, sizeof expected) == 0;
}

/* `count` bytes that all are `byte`. */
static int all(const uint8_t *bytes, size_t count, uint8_t byte) {
  size_t i;
  for (i = 0; i < count; i++)
    if (bytes[i] != byte) return 0;
  return 1;
}

/* Lowers P1 into `room` bytes between others, at odd addresses. */
static void lower_into(size_t room) {
  uint8_t sheet[1 + sizeof P1], bytes[64];
  size_t numbers[MALOVUNETH_NUMBERS], returned;
  memcpy(sheet + 1, P1, sizeof P1);
  memset(bytes, 0xA5, sizeof bytes);
  memset(numbers, 0xA5, sizeof numbers);
  returned = malovuneth_lower(sheet + 1, sizeof P1, bytes + 7, room, numbers);
  CHECK(memcmp(sheet + 1, P1, sizeof P1) == 0);
  CHECK(all(bytes, 7, 0xA5));
  CHECK(all(bytes + 7 + room, sizeof bytes - 7 - room, 0xA5));
  if (room < sizeof P1_PROGRAM) {
    CHECK(are(returned, numbers, MALOVUNETH_PROGRAM_TOO_LONG, 0));
    CHECK(all(bytes + 7, room, 0));
  } else {
    size_t rest = room - sizeof P1_PROGRAM;
    CHECK(are(returned, numbers, MALOVUNETH_ACCEPTED, sizeof P1_PROGRAM));
    CHECK(memcmp(bytes + 7, P1_PROGRAM, sizeof P1_PROGRAM) == 0);
    CHECK(all(bytes + 7 + sizeof P1_PROGRAM, rest, 0));
  }
}

/* Lengths of 0, with NULL. */
static void lend_nothing(void) {
  uint8_t out[8];
  size_t numbers[MALOVUNETH_NUMBERS], returned;
  memset(out, 0xA5, sizeof out);
  memset(numbers, 0xA5, sizeof numbers);
  returned = malovuneth_lower(NULL, 0, out, sizeof out, numbers);
  CHECK(are(returned, numbers, MALOVUNETH_CONTRACT_FORM, 0));
  CHECK(all(out, sizeof out, 0));
  returned = malovuneth_lower(P1, sizeof P1, NULL, 0, numbers);
  CHECK(are(returned, numbers, MALOVUNETH_PROGRAM_TOO_LONG, 0));
  returned = malovuneth_lower(NULL, 0, NULL, 0, numbers);
  CHECK(are(returned, numbers, MALOVUNETH_CONTRACT_FORM, 0));
  memset(numbers, 0xA5, sizeof numbers);
  returned = malovuneth_verify(NULL, 0, numbers);
  CHECK(are(returned, numbers, MALOVUNETH_PROGRAM_FORM, 0));
}

/* The linked version is the header's, which has it in three ways. */
static void versions(void) {
  char text[32];
  CHECK(malovuneth_version() == MALOVUNETH_VERSION_NUMBER);
  CHECK(MALOVUNETH_VERSION_NUMBER == MALOVUNETH_VERSION_MAJOR * 10000 +
                                         MALOVUNETH_VERSION_MINOR * 100 +
                                         MALOVUNETH_VERSION_PATCH);
  sprintf(text, "%d.%d.%d", MALOVUNETH_VERSION_MAJOR, MALOVUNETH_VERSION_MINOR,
          MALOVUNETH_VERSION_PATCH);
  CHECK(strcmp(text, MALOVUNETH_VERSION) == 0);
}

int main(void) {
  /* One byte more than the most: the sheet is then too long. */
  static uint8_t longer[MALOVUNETH_MOST_BYTES + 1];
  size_t numbers[MALOVUNETH_NUMBERS], returned, room;
  versions();
  for (room = 0; room <= 40; room++) lower_into(room);
  lend_nothing();
  returned = malovuneth_verify(P1_PROGRAM, sizeof P1_PROGRAM, numbers);
  CHECK(are(returned, numbers, MALOVUNETH_ACCEPTED, 0));
  returned = malovuneth_verify(longer, sizeof longer, numbers);
  CHECK(are(returned, numbers, MALOVUNETH_SHEET_TOO_LONG, 0));
  returned = malovuneth_verify(longer, sizeof longer - 1, numbers);
  CHECK(are(returned, numbers, MALOVUNETH_PROGRAM_FORM, 0));
  return failures != 0;
}
