/* Prints CCSDS primary headers as `packet_headers show` does, or packs them as `packet_headers pack` does (`headers pack`),
   by hand: a peer for its speed. */
#include <stdint.h>
#include <stdio.h>
#include <stdlib.h>
#include <string.h>

static const char *name(int bit) { return bit ? "true" : "false"; }

static int bit(const char *name, int *wrong) {
  int found = strcmp(name, "true") == 0;
  if (!found && strcmp(name, "false") != 0)
    *wrong = 1;
  return found;
}

static int pack(void) {
  char *line = NULL, telecommand[6], secondary[6];
  size_t size = 0;
  unsigned apid, sequence, count, length;
  while (getline(&line, &size, stdin) > 0) {
    int wrong = 0;
    if (sscanf(line, "{\"telecommand\": %5[a-z], \"secondary\": %5[a-z], \"apid\": %u, \"sequence\": %u, \"count\": %u, \"length\": %u}",
               telecommand, secondary, &apid, &sequence, &count, &length) != 6)
      return 3;
    unsigned first = (unsigned)bit(telecommand, &wrong) << 4 | (unsigned)bit(secondary, &wrong) << 3;
    if (wrong || apid >> 11 || sequence >> 2 || count >> 14 || length >> 16)
      return 3;
    uint8_t it[6] = {(uint8_t)(first | apid >> 8), (uint8_t)apid, (uint8_t)(sequence << 6 | count >> 8), (uint8_t)count,
                     (uint8_t)(length >> 8), (uint8_t)length};
    fwrite(it, 1, sizeof it, stdout);
  }
  free(line);
  return 0;
}

static int show(void) {
  static uint8_t room[6 * 10922];
  size_t held = 0, count;
  while ((count = fread(room + held, 1, sizeof room - held, stdin)) > 0) {
    size_t end = held + count, at = 0;
    for (; at + 6 <= end; at += 6) {
      const uint8_t *it = room + at;
      if (it[0] >> 5 != 0)
        return 3;
      printf("{\"telecommand\": %s, \"secondary\": %s, \"apid\": %u, \"sequence\": %u, \"count\": %u, \"length\": %u}\n",
             name(it[0] >> 4 & 1), name(it[0] >> 3 & 1), (it[0] & 7u) << 8 | it[1], it[2] >> 6u,
             (it[2] & 63u) << 8 | it[3], it[4] << 8u | it[5]);
    }
    held = end - at;
    for (size_t k = 0; k < held; k++)
      room[k] = room[at + k];
  }
  return held ? 4 : 0;
}

int main(int count, char **words) {
  static char out[1 << 16];
  setvbuf(stdout, out, _IOFBF, sizeof out);
  return count > 1 && strcmp(words[1], "pack") == 0 ? pack() : show();
}
