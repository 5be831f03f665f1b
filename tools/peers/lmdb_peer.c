/* What one would use instead of rha, LMDB: lmdb_peer load DB < TEXT; lmdb_peer ask DB QUESTIONS; gcc -O2 lmdb_peer.c -llmdb

   TEXT is what `bgpdump -m` writes, loaded at 10,000 changes a transaction, durable. QUESTIONS has the lines of tools/make-stream, and what is printed is
   what sqlite-peer prints.

   A change is an entry of the database: peer 2, family 1 (0: the peer's session ended), length 1, address 16, time 4, number 4 octets, greatest octet
   first; its value is the route as text, empty where there is none. Peers have their names in a database of their own. */
#include <arpa/inet.h>
#include <lmdb.h>
#include <stdint.h>
#include <stdio.h>
#include <stdlib.h>
#include <string.h>
#include <sys/stat.h>
#include <time.h>

enum { BATCH = 10000, PLACE = 20, KEY = 28, MOST_PEERS = 4096, MOST_QUESTIONS = 1 << 20 };
enum { ROUTE, PREFIX, PEER, KINDS };

static const char *const kinds[KINDS] = {"route", "prefix", "peer"};
static char *names[MOST_PEERS];
static int peers;
static MDB_env *env;
static MDB_txn *txn;
static MDB_dbi changes, peer_names;
static MDB_cursor *cursor;

static void must(int status) {
  if (status) {
    fprintf(stderr, "lmdb_peer: %s\n", mdb_strerror(status));
    exit(1);
  }
}

static void put32(uint8_t *to, uint32_t number) {
  number = htonl(number);
  memcpy(to, &number, 4);
}

static uint32_t number_of(const MDB_val *key) {
  uint32_t number;
  memcpy(&number, (const char *)key->mv_data + PLACE + 4, 4);
  return ntohl(number);
}

/* The peer's number; one that is new has the next one where it may be added, else -1. */
static int peer_of(const char *name, int add) {
  static int last;
  if (last < peers && !strcmp(names[last], name)) return last;
  for (last = 0; last < peers; last++)
    if (!strcmp(names[last], name)) return last;
  if (!add || peers == MOST_PEERS) return -1;
  names[peers] = strdup(name);
  return peers++;
}

/* The place of a prefix, or of a peer's ends where there is none. */
static void place(uint8_t *key, int peer, const char *prefix) {
  char address[64];
  const char *slash = prefix ? strchr(prefix, '/') : NULL;
  memset(key, 0, KEY);
  key[0] = (uint8_t)(peer >> 8);
  key[1] = (uint8_t)peer;
  if (!slash || slash - prefix >= (long)sizeof address) return;
  memcpy(address, prefix, (size_t)(slash - prefix));
  address[slash - prefix] = 0;
  key[2] = strchr(address, ':') ? 6 : 4;
  key[3] = (uint8_t)atoi(slash + 1);
  inet_pton(key[2] == 6 ? AF_INET6 : AF_INET, address, key + 4);
}

static int split(char *line, char **field, int most) {
  int count = 0;
  line[strcspn(line, "\n")] = 0;
  for (field[count++] = line; count < most && (line = strchr(line, '|')); field[count++] = line) *line++ = 0;
  return count;
}

static void open_at(const char *path, unsigned flags) {
  mkdir(path, 0755);
  must(mdb_env_create(&env));
  must(mdb_env_set_mapsize(env, (size_t)64 << 30));
  must(mdb_env_set_maxdbs(env, 2));
  must(mdb_env_open(env, path, 0, 0644));
  must(mdb_txn_begin(env, NULL, flags & MDB_CREATE ? 0 : MDB_RDONLY, &txn));
  must(mdb_dbi_open(txn, "changes", flags, &changes));
  must(mdb_dbi_open(txn, "peers", flags, &peer_names));
}

static void load(void) {
  char *line = NULL, *field[7], name[128];
  size_t room = 0;
  uint32_t number = 0;
  for (int waiting = 0; getline(&line, &room, stdin) > 0;) {
    int count = split(line, field, 7), known = peers, ended;
    if (count < 6) continue;
    number++;
    snprintf(name, sizeof name, "%s|%s", field[3], field[4]);
    int peer = peer_of(name, 1);
    if (peer < 0) exit(1);
    if (peers > known) {
      MDB_val key = {strlen(name), name}, value = {sizeof peer, &peer};
      must(mdb_put(txn, peer_names, &key, &value, 0));
    }
    ended = !strcmp(field[2], "STATE");
    if (ended && count == 7 && !strcmp(field[6], "6")) continue;
    uint8_t octets[KEY];
    char *route = ended || count < 7 ? "" : field[6];
    MDB_val key = {KEY, octets}, value = {strlen(route), route};
    place(octets, peer, ended ? NULL : field[5]);
    put32(octets + PLACE, (uint32_t)strtoul(field[1], NULL, 10));
    put32(octets + PLACE + 4, number);
    must(mdb_put(txn, changes, &key, &value, 0));
    if (++waiting == BATCH) {
      must(mdb_txn_commit(txn));
      must(mdb_txn_begin(env, NULL, 0, &txn));
      waiting = 0;
    }
  }
  must(mdb_txn_commit(txn));
}

/* Finds the newest change at a place, until a moment. */
static int newest(const uint8_t *at, uint32_t moment, MDB_val *key, MDB_val *value) {
  uint8_t octets[KEY];
  memcpy(octets, at, PLACE);
  put32(octets + PLACE, moment);
  put32(octets + PLACE + 4, UINT32_MAX);
  key->mv_size = KEY;
  key->mv_data = octets;
  int missing = mdb_cursor_get(cursor, key, value, MDB_SET_RANGE);
  missing = mdb_cursor_get(cursor, key, value, missing ? MDB_LAST : MDB_PREV);
  return !missing && !memcmp(key->mv_data, at, PLACE);
}

static uint32_t ended(int peer, uint32_t moment) {
  uint8_t at[KEY];
  MDB_val key, value;
  place(at, peer, NULL);
  return newest(at, moment, &key, &value) ? number_of(&key) : 0;
}

static int rows_at(const uint8_t *at, uint32_t moment, uint32_t end, MDB_val *value) {
  MDB_val key;
  return newest(at, moment, &key, value) && value->mv_size && number_of(&key) > end;
}

static int route(int peer, const char *prefix, uint32_t moment) {
  uint8_t at[KEY];
  MDB_val value;
  place(at, peer, prefix);
  return rows_at(at, moment, ended(peer, moment), &value);
}

/* A peer's table: from each prefix it goes on at the next one. */
static int table(int peer, uint32_t moment) {
  uint8_t at[KEY], here[KEY];
  uint32_t end = ended(peer, moment);
  int rows = 0;
  MDB_val key = {KEY, at}, value;
  place(at, peer, NULL);
  at[2] = 1;
  while (!mdb_cursor_get(cursor, &key, &value, MDB_SET_RANGE) && !memcmp(key.mv_data, at, 2)) {
    memcpy(here, key.mv_data, PLACE);
    rows += rows_at(here, moment, end, &value);
    memcpy(at, here, PLACE);
    memset(at + PLACE, 0xff, KEY - PLACE);
    key.mv_size = KEY;
    key.mv_data = at;
  }
  return rows;
}

static long now(void) {
  struct timespec time;
  clock_gettime(CLOCK_MONOTONIC, &time);
  return time.tv_sec * 1000000000 + time.tv_nsec;
}

static int by_size(const void *left, const void *right) {
  long a = *(const long *)left, b = *(const long *)right;
  return (a > b) - (a < b);
}

static int rows_of(int kind, int peer, const char *prefix, uint32_t moment) {
  int rows = 0;
  if (kind == ROUTE) return route(peer, prefix, moment);
  if (kind == PEER) return table(peer, moment);
  for (int each = 0; each < peers; each++) rows += route(each, prefix, moment);
  return rows;
}

static void read_names(void) {
  MDB_val key, value;
  must(mdb_cursor_open(txn, peer_names, &cursor));
  while (!mdb_cursor_get(cursor, &key, &value, MDB_NEXT)) {
    int peer;
    memcpy(&peer, value.mv_data, sizeof peer);
    names[peer] = strndup(key.mv_data, key.mv_size);
    peers++;
  }
  mdb_cursor_close(cursor);
}

static void ask(FILE *questions) {
  static const char *const which[] = {"first", "again"};
  static long times[KINDS][2][MOST_QUESTIONS];
  int count[KINDS] = {0};
  long rows[KINDS] = {0};
  char *line = NULL, *field[5], name[128];
  size_t room = 0;
  read_names();
  must(mdb_cursor_open(txn, changes, &cursor));
  while (getline(&line, &room, questions) > 0 && split(line, field, 5) == 5) {
    int kind = ROUTE, found = 0;
    while (kind < PEER && strcmp(kinds[kind], field[0])) kind++;
    snprintf(name, sizeof name, "%s|%s", field[1], field[2]);
    int peer = peer_of(name, 0);
    uint32_t moment = (uint32_t)strtoul(field[4], NULL, 10);
    if (peer < 0 || count[kind] == MOST_QUESTIONS) exit(1);
    for (int i = 0; i < 2; i++) {
      long began = now();
      found = rows_of(kind, peer, field[3], moment);
      times[kind][i][count[kind]] = now() - began;
    }
    count[kind]++;
    rows[kind] += found;
  }
  for (int kind = 0; kind < KINDS; kind++)
    for (int i = 0; i < 2; i++) {
      long *each = times[kind][i];
      int many = count[kind];
      if (!many) continue;
      qsort(each, (size_t)many, sizeof *each, by_size);
      printf("%s %s %d %ld %ld %ld %ld %ld\n", kinds[kind], which[i], many, each[many / 2], each[many * 9 / 10], each[many * 99 / 100], each[many - 1], rows[kind]);
    }
}

int main(int count, char **words) {
  FILE *questions = count == 4 ? fopen(words[3], "r") : NULL;
  if (count < 3 || (count == 4 && !questions)) return 2;
  open_at(words[2], questions ? 0 : MDB_CREATE);
  if (questions)
    ask(questions);
  else
    load();
  return 0;
}
