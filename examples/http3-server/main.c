/* An HTTP/3 server whose QPACK is h3_qpack.h: the options of its command line. */
#include <errno.h>
#include <stdlib.h>
#include <string.h>
#include "server.h"

options option = {.port = 4433,
                  .capacity = 4096,
                  .blocked = 16,
                  .limit = 65536,
                  .encoder_capacity = 16384,
                  .folder = "www",
                  .certificate = "certificate.pem",
                  .key = "key.pem"};

static const char usage[] =
    "usage: http3-server [OPTION VALUE]..\n"
    "  --port N              UDP port on 127.0.0.1; 4433\n"
    "  --folder PATH         the folder whose files are served; www\n"
    "  --certificate FILE    PEM; certificate.pem\n"
    "  --key FILE            PEM; key.pem\n"
    "  --capacity N          SETTINGS_QPACK_MAX_TABLE_CAPACITY, in bytes; 4096\n"
    "  --blocked N           SETTINGS_QPACK_BLOCKED_STREAMS; 16\n"
    "  --limit N             SETTINGS_MAX_FIELD_SECTION_SIZE, in bytes; 65536\n"
    "  --encoder-capacity N  capacity of the encoder's table, in bytes; 16384\n"
    "  --late N              hold the encoder stream back for N milliseconds, so that sections arrive first; 0\n"
    "  --lose N              lose one datagram in N that arrive; 0: none\n"
    "  --log FILE            write a line of JSON for each event of QPACK\n";

/* Reads a whole number below 2^30. */
static int read_number(const char *text, uint64_t *value) {
  char *end;
  *value = strtoull(text, &end, 10);
  return *text >= '0' && *text <= '9' && !*end && *value < (1u << 30);
}

static int set_option(const char *name, const char *value) {
  uint64_t number = 0;
  int is_number = read_number(value, &number);
  if (!strcmp(name, "--folder")) option.folder = value;
  else if (!strcmp(name, "--certificate")) option.certificate = value;
  else if (!strcmp(name, "--key")) option.key = value;
  else if (!strcmp(name, "--log")) option.log = value;
  else if (!is_number) return 0;
  else if (!strcmp(name, "--port") && number < 65536) option.port = (int)number;
  else if (!strcmp(name, "--capacity")) option.capacity = number;
  else if (!strcmp(name, "--blocked") && number < 65535) option.blocked = number;
  else if (!strcmp(name, "--limit")) option.limit = number;
  else if (!strcmp(name, "--encoder-capacity")) option.encoder_capacity = number;
  else if (!strcmp(name, "--late")) option.late = (int)number;
  else if (!strcmp(name, "--lose")) option.lose = (int)number;
  else return 0;
  return 1;
}

int main(int argc, char **argv) {
  for (int i = 1; i < argc; i += 2)
    if (i + 1 == argc || !set_option(argv[i], argv[i + 1])) {
      fputs(usage, stderr);
      return 2;
    }
  if (!open_log()) {
    fprintf(stderr, "http3-server: --log %s: %s\n", option.log, strerror(errno));
    return 1;
  }
  fprintf(stderr, "http3-server: https://localhost:%d, table %llu bytes, %llu blocked streams\n", option.port,
          (unsigned long long)option.capacity, (unsigned long long)option.blocked);
  serve();
  return 0;
}
