/* Runs litmus tests on an x86-64 processor under Linux, and prints a log of what it saw, in litmus7's form.
 *
 *     cc -O2 -pthread -o PROGRAM THIS-FILE
 *     PROGRAM [RUNS [MILLISECONDS [SEED [PROCESSOR..]]]]
 *
 * Each test is run so often (1,000,000 times), or for so long (10,000). Its threads are pinned to these processors (all that this process
 * may use); where it has more threads than there are, they aren't pinned. tools/hardware made this file of hardware.c and the tests. */
#define _GNU_SOURCE
#include <pthread.h>
#include <sched.h>
#include <stdint.h>
#include <stdio.h>
#include <stdlib.h>
#include <string.h>
#include <time.h>
#include <x86intrin.h>

/* the sizes */

enum { CORES = 8, LOCATIONS = 16, REGISTERS = 6, LINE = 64, ROUND = 256, STATES = 1 << 14, MOST_PROCESSORS = 1024 };

/* A place that a state names: a core's register, or of core -1 a location. */
struct place {
  int core, number;
};

struct test {
  const char *name, *kind, *condition; /* herd's word of the kind; no condition is NULL */
  int (*claim)(const uint32_t *values);
  int cores, locations, places;
  void (*programs[CORES])(char *memory, uint32_t *bank);
  uint32_t words[LOCATIONS], registers[CORES][REGISTERS];
  struct place shown[PLACES];
  const char *names[PLACES];
};

/* the tests */

struct state {
  uint64_t count;
  uint32_t values[PLACES];
};

static const struct test *test;
static char memory[ROUND * LOCATIONS * APART] __attribute__((aligned(4096)));
static uint32_t banks[ROUND][CORES][LINE / sizeof(uint32_t)] __attribute__((aligned(4096)));
static struct state states[STATES];
static uint64_t begins[ROUND];
static uint64_t arrived __attribute__((aligned(LINE)));
static uint64_t most_runs, most_nanoseconds, seed;
static int processors[MOST_PROCESSORS], processor_count;
static int stopped __attribute__((aligned(LINE)));
static int runs_of_round; /* ROUND, or fewer where the time ends in the middle */

static void end_with(const char *why) {
  fprintf(stderr, "hardware: %s\n", why);
  exit(1);
}

static uint64_t now(void) {
  struct timespec time;
  clock_gettime(CLOCK_MONOTONIC, &time);
  return (uint64_t)time.tv_sec * 1000000000u + (uint64_t)time.tv_nsec;
}

static uint32_t drawn(uint64_t *random) {
  *random ^= *random << 13;
  *random ^= *random >> 7;
  *random ^= *random << 17;
  return (uint32_t)(*random >> 32);
}

static char *memory_of(int run) { return memory + (size_t)run * test->locations * APART; }

static uint32_t *word(int run, int location) {
  return (uint32_t *)(memory_of(run) + (size_t)location * APART);
}

static int is_pinned(void) { return test->cores <= processor_count; }

/* Waits a moment; after many of them, or few where threads share processors, another one may have the processor, since what is waited for
 * may need it. */
static void wait_a_moment(unsigned *waits) {
  _mm_pause();
  if (++*waits % (is_pinned() ? 4096 : 64) == 0) sched_yield();
}

/* The nth meeting of all threads. Whoever comes last is told so. */
static int meet(uint64_t number) {
  uint64_t due = number * test->cores, before = __atomic_fetch_add(&arrived, 1, __ATOMIC_SEQ_CST);
  unsigned waits = 0;
  if (before + 1 == due) return 1;
  while (__atomic_load_n(&arrived, __ATOMIC_ACQUIRE) < due) wait_a_moment(&waits);
  return 0;
}

/* Meets, and then begins with the others, by the time stamp that the last one sets; a little later by chance. */
static void begin_together(uint64_t number, int run, uint32_t later) {
  unsigned waits = 0;
  if (meet(number)) __atomic_store_n(&begins[run], __rdtsc() + 400, __ATOMIC_RELEASE);
  uint64_t begin;
  while ((begin = __atomic_load_n(&begins[run], __ATOMIC_ACQUIRE)) == 0) wait_a_moment(&waits);
  /* where two processors' time stamps differ much, the wait is short all the same */
  for (int turns = 0; turns < 200 && (int64_t)(__rdtsc() - begin - later) < 0; turns++) continue;
}

/* Puts the first words and registers of a run in place. */
static void prepare(int run) {
  for (int location = 0; location < test->locations; location++) *word(run, location) = test->words[location];
  for (int core = 0; core < test->cores; core++) memcpy(banks[run][core], test->registers[core], sizeof test->registers[core]);
  begins[run] = 0;
}

/* Loads some of the locations, so that their lines are in this core's cache. */
static void touch(int run, uint32_t which) {
  for (int location = 0; location < test->locations; location++)
    if (which >> location & 1) (void)*(volatile uint32_t *)word(run, location);
}

/* Counts the state that a run has ended in. */
static void count(int run) {
  uint32_t values[PLACES] = {0};
  uint64_t hash = 0;
  for (int place = 0; place < test->places; place++) {
    const struct place *shown = &test->shown[place];
    values[place] = shown->core < 0 ? *word(run, shown->number) : banks[run][shown->core][shown->number];
    hash = (hash ^ values[place]) * 0x9e3779b97f4a7c15u;
  }
  uint32_t at = (uint32_t)(hash >> 40) % STATES;
  for (int tries = 0; tries < STATES; tries++, at = (at + 1) % STATES) {
    if (states[at].count == 0) memcpy(states[at].values, values, sizeof values);
    if (memcmp(states[at].values, values, sizeof values) == 0) {
      states[at].count++;
      return;
    }
  }
  end_with("a test has more states than can be counted");
}

static void pin(int processor) {
  cpu_set_t set;
  CPU_ZERO(&set);
  CPU_SET(processors[processor % processor_count], &set);
  if (pthread_setaffinity_np(pthread_self(), sizeof set, &set) != 0) end_with("a thread can't be pinned to its processor");
}

/* How far apart the starts of a round's runs may be, in ticks of the time stamp. */
static uint32_t distance_of(uint64_t round) {
  static const uint32_t distances[] = {1, 64, 256, 16, 1024, 128};
  return distances[round % 6];
}

/* A core's thread: rounds of many runs, until there were enough or the time is over. */
static void *run_core(void *given) {
  int core = (int)(intptr_t)given;
  uint64_t random = (seed * 8 + core + 1) * 0x9e3779b97f4a7c15u, meetings = 0, from = now(), done = 0;
  for (uint64_t round = 0; !__atomic_load_n(&stopped, __ATOMIC_ACQUIRE); round++) {
    if (is_pinned()) pin(core + (int)(round % processor_count));
    /* each thread prepares its share of the runs: their lines begin in its cache */
    for (int run = core; run < ROUND; run += test->cores) prepare(run);
    meet(++meetings);
    for (int run = 0; run < ROUND; run++) {
      touch(run, drawn(&random) & drawn(&random));
      /* what is written before a meeting is read after it, so all threads end their round before the same run */
      if (core == 0 && run > 0 && run % 32 == 0 && now() - from > most_nanoseconds) runs_of_round = run;
      begin_together(++meetings, run, drawn(&random) % distance_of(round));
      if (run >= runs_of_round) break;
      test->programs[core](memory_of(run), banks[run][core]);
    }
    meet(++meetings);
    if (core == 0) {
      for (int run = 0; run < runs_of_round && done < most_runs; run++, done++) count(run);
      if (done == most_runs || now() - from > most_nanoseconds) __atomic_store_n(&stopped, 1, __ATOMIC_RELEASE);
    }
    meet(++meetings);
  }
  return NULL;
}

/* Orders states by their values, those that weren't seen last. */
static int by_values(const void *one, const void *other) {
  const struct state *first = one, *second = other;
  if ((first->count == 0) != (second->count == 0)) return first->count == 0 ? 1 : -1;
  for (int place = 0; place < test->places; place++)
    if (first->values[place] != second->values[place]) return first->values[place] < second->values[place] ? -1 : 1;
  return 0;
}

/* Prints what was seen. */
static void print_log(void) {
  unsigned long long seen = 0, met[2] = {0, 0};
  qsort(states, STATES, sizeof states[0], by_values);
  while (seen < STATES && states[seen].count != 0) seen++;
  printf("Test %s %s\nHistogram (%llu states)\n", test->name, test->kind, seen);
  for (unsigned long long at = 0; at < seen; at++) {
    int holds = test->claim(states[at].values) != 0;
    met[holds] += states[at].count;
    printf("%-6llu%c>", (unsigned long long)states[at].count, holds ? '*' : ':');
    for (int place = 0; place < test->places; place++) printf("%s%s=%u;", place == 0 ? "" : " ", test->names[place], states[at].values[place]);
    printf("\n");
  }
  if (test->condition != NULL) {
    int is_so = test->kind[0] == 'A' ? met[1] > 0 : test->kind[0] == 'F' ? met[1] == 0 : met[0] == 0;
    printf("%s\nWitnesses\nPositive: %llu Negative: %llu\nCondition %s\n", is_so ? "Ok" : "No", met[1], met[0], test->condition);
    printf("Observation %s %s %llu %llu\n", test->name, met[1] == 0 ? "Never" : met[0] == 0 ? "Always" : "Sometimes", met[1], met[0]);
  }
  printf("\n");
  fflush(stdout);
}

static void run_test(void) {
  pthread_t threads[CORES];
  memset(states, 0, sizeof states);
  arrived = 0;
  stopped = 0;
  runs_of_round = ROUND;
  for (int core = 0; core < test->cores; core++)
    if (pthread_create(&threads[core], NULL, run_core, (void *)(intptr_t)core) != 0) end_with("a thread can't be made");
  for (int core = 0; core < test->cores; core++) pthread_join(threads[core], NULL);
  print_log();
}

/* The processors that this process may use. */
static void find_processors(void) {
  cpu_set_t set;
  if (sched_getaffinity(0, sizeof set, &set) != 0) end_with("the processors aren't known");
  for (int processor = 0; processor < CPU_SETSIZE && processor_count < MOST_PROCESSORS; processor++)
    if (CPU_ISSET(processor, &set)) processors[processor_count++] = processor;
}

int main(int words, char **given) {
  most_runs = words > 1 ? strtoull(given[1], NULL, 10) : 1000000;
  most_nanoseconds = (words > 2 ? strtoull(given[2], NULL, 10) : 10000) * 1000000u;
  seed = words > 3 ? strtoull(given[3], NULL, 10) : 1;
  for (int at = 4; at < words && processor_count < MOST_PROCESSORS; at++) processors[processor_count++] = atoi(given[at]);
  if (processor_count == 0) find_processors();
  for (size_t at = 0; at < sizeof tests / sizeof tests[0]; at++) {
    test = &tests[at];
    run_test();
  }
  return 0;
}
