// Loads a hub on this machine with clients, and prints a row for each kind of load.
//
// load TABLES PORT HUB USERS SECONDS [nats]: the file with Tiger's tables, the port on 127.0.0.1, the number of the hub's process,
// how many clients log in (2 to 900), and how long each load lasts. With the word nats the hub is a nats-server: what is said to all is
// published under one subject, which all subscribe to, and there is only that load.
//
// One thread serves all clients. Whatever a client is owed and does not get within a minute ends the program with status 1.

#include <arpa/inet.h>
#include <errno.h>
#include <fcntl.h>
#include <netinet/tcp.h>
#include <stdbool.h>
#include <stdint.h>
#include <stdio.h>
#include <stdlib.h>
#include <string.h>
#include <sys/epoll.h>
#include <sys/resource.h>
#include <time.h>
#include <unistd.h>

enum { MAX_USERS = 900, MAX_IN_FLIGHT = 64, CHUNK = 1 << 18, MAX_LATENCIES = 1 << 22 };
enum { DIGEST = 24, DIGEST_TEXT = 39 };

typedef struct {
  int socket;
  int number;
  bool is_present;
  char sid[5];
  // What has come of a line whose end has not.
  char *rest;
  size_t rest_length;
  // When the lines were sent whose echo has not come, the oldest at `oldest`.
  double sent_at[MAX_IN_FLIGHT];
  unsigned oldest, in_flight;
  // Whom it writes to alone, if to anybody.
  int partner;
} Client;

// One more comes and goes.
static Client clients[MAX_USERS + 1];
static int users, poll_set, hub_process;
static uint64_t tables[4][256];
static char input[CHUNK + (1 << 17)];
static double latencies[MAX_LATENCIES];
static size_t latency_count;
static uint64_t present, infos, chats, directs, sent;
static bool is_sending, is_nats;

static void fail(const char *what) {
  fprintf(stderr, "load: %s\n", what);
  exit(1);
}

static double now(void) {
  struct timespec time;
  clock_gettime(CLOCK_MONOTONIC, &time);
  return time.tv_sec + time.tv_nsec * 1e-9;
}

// ---- identities

static void tiger_pass(uint64_t *a, uint64_t *b, uint64_t *c, const uint64_t *x, uint64_t factor) {
  for (int i = 0; i < 8; i++) {
    *c ^= x[i];
    uint8_t bytes[8];
    for (int k = 0; k < 8; k++) bytes[k] = *c >> (8 * k);
    *a -= tables[0][bytes[0]] ^ tables[1][bytes[2]] ^ tables[2][bytes[4]] ^ tables[3][bytes[6]];
    *b += tables[3][bytes[1]] ^ tables[2][bytes[3]] ^ tables[1][bytes[5]] ^ tables[0][bytes[7]];
    *b *= factor;
    uint64_t first = *a;
    *a = *b, *b = *c, *c = first;
  }
}

static void tiger_schedule(uint64_t *x) {
  x[0] -= x[7] ^ 0xA5A5A5A5A5A5A5A5u;
  x[1] ^= x[0], x[2] += x[1], x[3] -= x[2] ^ (~x[1] << 19);
  x[4] ^= x[3], x[5] += x[4], x[6] -= x[5] ^ (~x[4] >> 23);
  x[7] ^= x[6], x[0] += x[7], x[1] -= x[0] ^ (~x[7] << 19);
  x[2] ^= x[1], x[3] += x[2], x[4] -= x[3] ^ (~x[2] >> 23);
  x[5] ^= x[4], x[6] += x[5], x[7] -= x[6] ^ 0x0123456789ABCDEFu;
}

// Tiger of 24 bytes, which are one block.
static void tiger(const uint8_t *message, uint8_t *digest) {
  const uint64_t start[3] = {0x0123456789ABCDEFu, 0xFEDCBA9876543210u, 0xF096A5B4C3B2E187u};
  uint64_t x[8] = {0}, a = start[0], b = start[1], c = start[2];
  memcpy(x, message, DIGEST);
  x[3] = 1;
  x[7] = DIGEST * 8;
  for (int pass = 0; pass < 3; pass++) {
    if (pass > 0) tiger_schedule(x);
    tiger_pass(&a, &b, &c, x, 5 + 2 * pass);
  }
  a ^= start[0], b -= start[1], c += start[2];
  memcpy(digest, &a, 8);
  memcpy(digest + 8, &b, 8);
  memcpy(digest + 16, &c, 8);
}

static void base32(const uint8_t *bytes, char *text) {
  for (int i = 0; i < DIGEST_TEXT; i++) {
    int bit = 5 * i, value = 0;
    for (int k = 0; k < 5; k++, bit++)
      value = 2 * value + (bit < 8 * DIGEST ? bytes[bit / 8] >> (7 - bit % 8) & 1 : 0);
    text[i] = "ABCDEFGHIJKLMNOPQRSTUVWXYZ234567"[value];
  }
  text[DIGEST_TEXT] = 0;
}

static void read_tables(const char *path) {
  FILE *file = fopen(path, "rb");
  if (!file || fread(tables, 1, sizeof tables, file) != sizeof tables) fail("no tables");
  fclose(file);
}

// ---- what clients say

static void say(Client *client, const char *line, size_t length) {
  if (write(client->socket, line, length) != (ssize_t)length) fail("a line was not taken by the system");
}

static void log_in(Client *client) {
  uint8_t pid[DIGEST] = {0}, cid[DIGEST];
  char pid_text[DIGEST_TEXT + 1], cid_text[DIGEST_TEXT + 1], line[400];
  memcpy(pid, &client->number, sizeof client->number);
  pid[DIGEST - 1] = 1;
  tiger(pid, cid);
  base32(pid, pid_text);
  base32(cid, cid_text);
  int length = snprintf(line, sizeof line,
                        "BINF %s ID%s PD%s NIuser%d SL3 FS3 SS1073741824 SF1000 HN1 HR0 HO0 SUTCP4 VEload\\s1\n",
                        client->sid, cid_text, pid_text, client->number);
  say(client, line, length);
}

// Has a nats-server answer once the client is subscribed.
static void subscribe(Client *client) {
  static const char text[] = "CONNECT {\"verbose\":false,\"pedantic\":false}\r\nSUB chat 1\r\nPING\r\n";
  snprintf(client->sid, sizeof client->sid, "%04d", client->number);
  say(client, text, sizeof text - 1);
}

static void sends(Client *client) {
  client->sent_at[(client->oldest + client->in_flight++) % MAX_IN_FLIGHT] = now();
  sent++;
}

static void chat(Client *client) {
  char line[100];
  int length = snprintf(line, sizeof line, "BMSG %s a\\sline\\sof\\schat\\sof\\susual\\slength,\\s%llu\n", client->sid,
                        (unsigned long long)sent);
  sends(client);
  if (is_nats) {
    char message[140];
    int size = snprintf(message, sizeof message, "PUB chat %d\r\n%s\r\n", length, line);
    return say(client, message, size);
  }
  say(client, line, length);
}

static void write_to_partner(Client *client) {
  char line[100];
  int length = snprintf(line, sizeof line, "DMSG %s %s a\\sline\\sfor\\sone\\salone PM%s\n", client->sid,
                        clients[client->partner].sid, client->sid);
  say(client, line, length);
}

static void got_back(Client *client) {
  if (client->in_flight == 0) fail("an echo of nothing");
  if (latency_count < MAX_LATENCIES) latencies[latency_count++] = now() - client->sent_at[client->oldest];
  client->oldest = (client->oldest + 1) % MAX_IN_FLIGHT;
  client->in_flight--;
}

// ---- what clients hear

static bool begins(const char *line, size_t length, const char *with) {
  size_t wanted = strlen(with);
  return length >= wanted && !memcmp(line, with, wanted);
}

static void hear_info(Client *client, const char *line) {
  infos++;
  if (!client->is_present && !memcmp(line + 5, client->sid, 4)) {
    client->is_present = true;
    present++;
  }
}

static void hear_chat(Client *client, const char *line) {
  chats++;
  if (client->in_flight == 0 || memcmp(line + 5, client->sid, 4)) return;
  got_back(client);
  if (is_sending) chat(client);
}

// The one with the lower number begins; the other answers each line.
static void hear_direct(Client *client) {
  directs++;
  if (client->number > client->partner) {
    write_to_partner(client);
    return;
  }
  got_back(client);
  if (is_sending) {
    sends(client);
    write_to_partner(client);
  }
}

static void hear(Client *client, const char *line, size_t length) {
  if (begins(line, length, "BMSG ")) return hear_chat(client, line);
  if (begins(line, length, "DMSG ")) return hear_direct(client);
  if (begins(line, length, "BINF ")) return hear_info(client, line);
  if (is_nats && begins(line, length, "INFO ")) return subscribe(client);
  if (is_nats && begins(line, length, "PING")) return say(client, "PONG\r\n", 6);
  if (is_nats && begins(line, length, "PONG") && !client->is_present) {
    client->is_present = true;
    present++;
    return;
  }
  if (is_nats && begins(line, length, "-ERR")) fail("a client was refused something");
  if (begins(line, length, "ISID ")) {
    memcpy(client->sid, line + 5, 4);
    return log_in(client);
  }
  if (begins(line, length, "ISTA 1") || begins(line, length, "ISTA 2")) {
    fprintf(stderr, "%.*s\n", (int)length, line);
    fail("a client was refused something");
  }
}

static void read_client(Client *client) {
  if (client->rest_length) memcpy(input, client->rest, client->rest_length);
  ssize_t count = read(client->socket, input + client->rest_length, CHUNK);
  // A hub that sends its lines one by one waits for what the system would put off to confirm.
  int yes = 1;
  if (!client->is_present) setsockopt(client->socket, IPPROTO_TCP, TCP_QUICKACK, &yes, sizeof yes);
  if (count < 0 && errno == EAGAIN) return;
  if (count <= 0) fail("the hub closed a connection");
  char *line = input, *end = input + client->rest_length + count, *feed;
  while ((feed = memchr(line, '\n', end - line))) {
    hear(client, line, feed - line);
    line = feed + 1;
  }
  client->rest_length = end - line;
  if (client->rest_length > 1 << 17) fail("a line is too long");
  if (client->rest_length) {
    client->rest = realloc(client->rest, client->rest_length);
    memcpy(client->rest, line, client->rest_length);
  }
}

static void turn(void) {
  struct epoll_event events[MAX_USERS];
  int count = epoll_wait(poll_set, events, MAX_USERS, 10);
  for (int i = 0; i < count; i++) read_client(events[i].data.ptr);
}

// Goes on until a count is reached; a minute is too long.
static void wait_for(const uint64_t *counted, uint64_t wanted, const char *what) {
  double limit = now() + 60;
  while (*counted < wanted) {
    turn();
    if (now() > limit) fail(what);
  }
  if (*counted > wanted) fail("more came than was sent");
}

// ---- what is measured

typedef struct {
  double at, hub, own;
} Moment;

// Seconds of the processors that the hub has used.
static double hub_time(void) {
  char path[64], text[1024];
  snprintf(path, sizeof path, "/proc/%d/stat", hub_process);
  FILE *file = fopen(path, "r");
  if (!file || !fgets(text, sizeof text, file)) fail("the hub is gone");
  fclose(file);
  unsigned long user, system;
  if (sscanf(strrchr(text, ')') + 1, " %*c %*d %*d %*d %*d %*d %*u %*u %*u %*u %*u %lu %lu", &user, &system) != 2)
    fail("the hub's time is not told");
  return (double)(user + system) / sysconf(_SC_CLK_TCK);
}

static double own_time(void) {
  struct rusage usage;
  getrusage(RUSAGE_SELF, &usage);
  return usage.ru_utime.tv_sec + usage.ru_stime.tv_sec + (usage.ru_utime.tv_usec + usage.ru_stime.tv_usec) * 1e-6;
}

static Moment moment(void) {
  return (Moment){now(), hub_time(), own_time()};
}

static int by_size(const void *a, const void *b) {
  double first = *(const double *)a, second = *(const double *)b;
  return (first > second) - (first < second);
}

static void print_row(const char *load, uint64_t lines, Moment start, Moment end) {
  double seconds = end.at - start.at;
  printf("| %d | %s | %.0f | %.2f | ", users, load, lines / seconds, (end.hub - start.hub) * 1e6 / lines);
  if (latency_count) {
    qsort(latencies, latency_count, sizeof *latencies, by_size);
    printf("%.0f | %.0f | ", latencies[latency_count / 2] * 1e6, latencies[latency_count * 99 / 100] * 1e6);
  } else {
    printf("| | ");
  }
  printf("%.0f %% |\n", 100 * (end.own - start.own) / seconds);
  fflush(stdout);
  latency_count = 0;
}

static void send_for(double seconds) {
  double end = now() + seconds;
  while (now() < end) turn();
  is_sending = false;
}

// Some clients chat, each with some lines on their way.
static void chats_of(const char *load, int senders, int lines, double seconds) {
  sent = chats = 0;
  is_sending = true;
  Moment start = moment();
  for (int i = 0; i < senders; i++)
    for (int k = 0; k < lines; k++) chat(&clients[i]);
  send_for(seconds);
  wait_for(&chats, sent * users, "a line of chat did not come");
  print_row(load, chats, start, moment());
}

// Some pairs of clients write to one another.
static void pairs_of(const char *load, int pairs, double seconds) {
  sent = directs = 0;
  is_sending = true;
  Moment start = moment();
  for (int i = 0; i < pairs; i++) {
    clients[2 * i].partner = 2 * i + 1;
    clients[2 * i + 1].partner = 2 * i;
    sends(&clients[2 * i]);
    write_to_partner(&clients[2 * i]);
  }
  send_for(seconds);
  wait_for(&directs, sent * 2, "a line for one alone did not come");
  print_row(load, directs, start, moment());
}

// ---- the start

static void connect_client(Client *client, int number, int port) {
  struct sockaddr_in address = {.sin_family = AF_INET, .sin_port = htons(port), .sin_addr.s_addr = htonl(INADDR_LOOPBACK)};
  int yes = 1;
  client->number = number;
  client->socket = socket(AF_INET, SOCK_STREAM, 0);
  if (client->socket < 0 || connect(client->socket, (struct sockaddr *)&address, sizeof address)) fail("no connection");
  setsockopt(client->socket, IPPROTO_TCP, TCP_NODELAY, &yes, sizeof yes);
  fcntl(client->socket, F_SETFL, O_NONBLOCK);
  struct epoll_event event = {.events = EPOLLIN, .data.ptr = client};
  if (epoll_ctl(poll_set, EPOLL_CTL_ADD, client->socket, &event)) fail("no place among those that are waited for");
  if (!is_nats) say(client, "HSUP ADBASE ADTIGR\n", 19);
}

static void enter_all(int port) {
  Moment start = moment();
  for (int i = 0; i < users; i++) connect_client(&clients[i], i, port);
  wait_for(&present, users, "a client did not enter");
  Moment end = moment();
  print_row("logins", users, start, end);
  if (is_nats) return;
  wait_for(&infos, (uint64_t)users * users, "a client did not hear of all others");
}

// One client after another enters beside all others, and leaves once it is shown to itself.
static void come_and_go(double seconds, int port) {
  Client *client = &clients[users];
  int cycles = 0;
  Moment start = moment();
  while (now() < start.at + seconds) {
    double began = now();
    client->is_present = false;
    client->rest_length = 0;
    present = 0;
    // The hub may not have seen yet that the last one left.
    connect_client(client, users + cycles, port);
    wait_for(&present, 1, "a client that comes and goes did not enter");
    close(client->socket);
    if (latency_count < MAX_LATENCIES) latencies[latency_count++] = now() - began;
    cycles++;
  }
  print_row("users who come and go", cycles, start, moment());
}

// The kilobytes that the hub has in memory: now ("VmRSS: %ld kB"), or at most so far ("VmHWM: %ld kB").
static long hub_memory(const char *line) {
  char path[64], text[256];
  long kilobytes = 0;
  snprintf(path, sizeof path, "/proc/%d/status", hub_process);
  FILE *file = fopen(path, "r");
  while (file && fgets(text, sizeof text, file)) sscanf(text, line, &kilobytes);
  if (file) fclose(file);
  if (kilobytes == 0) fail("the hub's memory is not told");
  return kilobytes;
}

static void print_memory(void) {
  printf("| %d | peak memory | %.0f MB | | | | |\n", users, hub_memory("VmHWM: %ld kB") / 1e3);
}

int main(int count, char **words) {
  is_nats = count == 7 && !strcmp(words[6], "nats");
  if (count != 6 && !is_nats) fail("load TABLES PORT HUB USERS SECONDS [nats]");
  read_tables(words[1]);
  hub_process = atoi(words[3]);
  users = atoi(words[4]);
  double seconds = atof(words[5]);
  if (users < 2 || users > MAX_USERS) fail("2 to 900 users");
  int pairs = users / 2 < 50 ? users / 2 : 50;
  poll_set = epoll_create1(0);
  long before = hub_memory("VmRSS: %ld kB");
  enter_all(atoi(words[2]));
  // All have read what waited for them.
  double more = hub_memory("VmRSS: %ld kB") - before;
  printf("| %d | an idle connection | %.1f KB | | | | |\n", users, more / users);
  chats_of("10 senders, 10 lines each on their way", 10, 10, seconds);
  if (is_nats) {
    print_memory();
    return 0;
  }
  chats_of("1 sender, 1 line on its way", 1, 1, seconds);
  pairs_of("1 pair, lines for one alone", 1, seconds);
  pairs_of("many pairs, lines for one alone", pairs, seconds);
  if (users < MAX_USERS) come_and_go(seconds, atoi(words[2]));
  print_memory();
  return 0;
}
