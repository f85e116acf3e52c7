// The yardstick for the proved program: it writes the same output for the same scripts, byte for byte, and is as
// fast as a plain program can be. `bench/compare` builds it and measures both, `bench/agree` tries whether they agree.
//
//     ghost run                 writes the replies to the script that it reads from standard input
//     ghost report --last N     writes the report on it
//
// The script is read at once and each line is run when it has been parsed. The output goes into one block, and is
// thrown away if a later line turns out to be at fault. Nothing is kept that no event can show: of the journal
// there is the count of its entries alone, of the ring the places where bytes would stand, and the messages beside it.
// For processors that store the lowest byte first.

#define _GNU_SOURCE
#include <errno.h>
#include <stdbool.h>
#include <stdint.h>
#include <stdio.h>
#include <stdlib.h>
#include <string.h>
#include <sys/mman.h>
#include <sys/stat.h>
#include <unistd.h>

#define likely(x) __builtin_expect(!!(x), 1)
#define unlikely(x) __builtin_expect(!!(x), 0)

enum {
    MOST_BYTES = 1048576,
    MOST_THREADS = 65536,
    MOST_CPUS = 128,
    MOST_TICKS = 65535,
    SHORTEST_MESSAGE = 16,
    QUEUE = 1048576 / SHORTEST_MESSAGE,
    // The output is written, once the rest of the script is known to be without a fault, when this much waits.
    FLUSH = 32 << 20,
    // More than the lines of one event: a thread's is under 128 bytes long.
    ONE_EVENT = 128 * MOST_THREADS,
    // A script that is longer brings in large pages.
    SHORT_SCRIPT = 65536,
    LARGE_PAGE = 2 << 20,
    // Room for transactions that is there from the start.
    FIRST_ROOM = 40000,
    NO_CPU = 255,
};

enum status { RAN = 0, SCRIPT_FAULT = 2, WRONG_ARGUMENTS = 3, IO_FAULT = 4, NO_MEMORY = 5 };

enum kind { CREATED = 1, BLOCKED, WAKEUP, PREEMPTED, YIELD, DEAD, AFFINITY, TICK };

// ---- masks ----

// A set of CPUs, CPU k its bit k. It may stand at any multiple of four bytes, so that a row of a thread holds two of them.
typedef unsigned __int128 cpumask __attribute__((aligned(4)));
#define ALL_MASKS (~(cpumask)0)
// The half of a mask that a CPU's bit is in is read and changed alone.
typedef uint64_t half __attribute__((may_alias, aligned(4)));

static inline bool has(const cpumask *mask, unsigned cpu)
{
    return ((const half *)mask)[cpu / 64] >> cpu % 64 & 1;
}

static inline void add(cpumask *mask, unsigned cpu)
{
    ((half *)mask)[cpu / 64] |= UINT64_C(1) << cpu % 64;
}

static inline void drop(cpumask *mask, unsigned cpu)
{
    ((half *)mask)[cpu / 64] &= ~(UINT64_C(1) << cpu % 64);
}

// The least CPU of a mask that has one.
static inline unsigned least(cpumask mask)
{
    uint64_t low = (uint64_t)mask;
    return low ? (unsigned)__builtin_ctzll(low) : 64 + (unsigned)__builtin_ctzll((uint64_t)(mask >> 64));
}

// ---- texts ----

struct text {
    char bytes[31];
    uint8_t length;
};
#define TEXT(s) { s, sizeof(s) - 1 }

enum refusal {
    NO_THREAD = 1, NOT_RUNNING, NOT_BLOCKED, EMPTY_MASK, BAD_CPU, AGENT_THERE, CPU_TAKEN, NOT_TAKEN, NOT_ACTIVE,
    STILL_ATTACHED, NOT_ATTACHING, SEQ_SPENT, GEN_SPENT, TIDS_SPENT, HISTORY_FULL, SLOT_OPEN, NO_SUCH_TRANSACTION, GONE,
};

static const struct text REFUSED[] = {
    [NO_THREAD] = TEXT("refused 1 NoThread\n"),
    [NOT_RUNNING] = TEXT("refused 2 NotRunning\n"),
    [NOT_BLOCKED] = TEXT("refused 3 NotBlocked\n"),
    [EMPTY_MASK] = TEXT("refused 4 EmptyMask\n"),
    [BAD_CPU] = TEXT("refused 5 BadCpu\n"),
    [AGENT_THERE] = TEXT("refused 6 AgentThere\n"),
    [CPU_TAKEN] = TEXT("refused 7 CpuTaken\n"),
    [NOT_TAKEN] = TEXT("refused 8 NotTaken\n"),
    [NOT_ACTIVE] = TEXT("refused 9 NotActive\n"),
    [STILL_ATTACHED] = TEXT("refused 10 StillAttached\n"),
    [NOT_ATTACHING] = TEXT("refused 11 NotAttaching\n"),
    [SEQ_SPENT] = TEXT("refused 12 SeqSpent\n"),
    [GEN_SPENT] = TEXT("refused 13 GenSpent\n"),
    [TIDS_SPENT] = TEXT("refused 14 TidsSpent\n"),
    [HISTORY_FULL] = TEXT("refused 15 HistoryFull\n"),
    [SLOT_OPEN] = TEXT("refused 16 SlotOpen\n"),
    [NO_SUCH_TRANSACTION] = TEXT("refused 17 NoSuchTransaction\n"),
    [GONE] = TEXT("refused 18 Gone\n"),
};

enum outcome {
    IS_PLACED, IS_GONE, IS_DISPLACED, IS_NO_THREAD, IS_STALE, IS_NOT_RUNNABLE, IS_ALREADY_PLACED, IS_NOT_ALLOWED,
    IS_CPU_AGENT, IS_CPU_TAKEN, IS_CPU_BUSY, IS_SEQ_SPENT, IS_HISTORY_FULL, IS_GROUP_FAILED = 14,
};

static const struct text OUTCOME[] = {
    [IS_PLACED] = TEXT(" placed "),
    [IS_GONE] = TEXT(" gone "),
    [IS_DISPLACED] = TEXT(" displaced "),
    [IS_NO_THREAD] = TEXT(" nothread "),
    [IS_STALE] = TEXT(" stale "),
    [IS_NOT_RUNNABLE] = TEXT(" notrunnable "),
    [IS_ALREADY_PLACED] = TEXT(" alreadyplaced "),
    [IS_NOT_ALLOWED] = TEXT(" notallowed "),
    [IS_CPU_AGENT] = TEXT(" cpuisagent "),
    [IS_CPU_TAKEN] = TEXT(" cputaken "),
    [IS_CPU_BUSY] = TEXT(" cpubusy "),
    [IS_SEQ_SPENT] = TEXT(" seqspent "),
    [IS_HISTORY_FULL] = TEXT(" historyfull "),
    [IS_GROUP_FAILED] = TEXT(" groupfailed "),
};

static const struct text KIND[] = {
    [CREATED] = TEXT("unread created "),
    [BLOCKED] = TEXT("unread blocked "),
    [WAKEUP] = TEXT("unread wakeup "),
    [PREEMPTED] = TEXT("unread preempted "),
    [YIELD] = TEXT("unread yield "),
    [DEAD] = TEXT("unread dead "),
    [AFFINITY] = TEXT("unread affinity "),
    [TICK] = TEXT("unread tick "),
};

// ---- state ----

static uint32_t cpus, capacity, first_tseq, history, slice;
static bool two_classes;
// The CPUs that are not there.
static cpumask absent;

// The kernel's row of a thread. One that is not alive keeps its last number.
struct thread {
    cpumask mask;
    uint32_t tseq;
    uint32_t name;
    uint8_t name_length;
    uint8_t class;
    uint8_t cpu;
    bool alive : 1;
    bool runnable : 1;
};
static uint64_t alive[MOST_THREADS / 64];
static uint32_t created;
static uint32_t running[MOST_CPUS];
static cpumask taken;
static uint32_t entries = 1;
static bool torn;
// The last generation that was given, and who has it. The CPU is the active agent's, NO_CPU while none is active.
static enum role { NOBODY, ATTACHING, ACTIVE } role = ACTIVE;
static uint32_t generation;
static uint8_t agent;
// The thread from which the next page goes on, 0 if there is none after the last one.
static uint32_t next_page;

// Of a message that waits in the ring all is kept that its record has, but for what never changes: name and class.
struct message {
    _Alignas(16) cpumask mask;
    uint32_t tid;
    uint32_t tseq;
    uint8_t kind;
    uint8_t cpu;
    // The record with the padding before it.
    uint8_t bytes;
    bool runnable : 1;
    bool off : 1;
};
static uint32_t queue_first, queue_length;
static uint32_t write_place, used_bytes;

// The agent's record of a thread. `next` and `previous` are the threads beside it in the run queue of its class, 0 if
// it does not wait. Of a record of another era than the agent's nothing counts: the agent does not know the thread. Its
// name is the one in the kernel's row.
struct record {
    cpumask mask;
    uint32_t tseq;
    uint32_t era;
    uint32_t next;
    uint32_t previous;
    bool runnable : 1;
    bool class : 1;
    // The CPU that it is believed on.
    uint8_t cpu;
    // How many stamped slots name it.
    uint8_t stamps;
};
static uint64_t present[MOST_THREADS / 64];
// One more with each agent that began. No record has era 0 that counts.
static uint32_t era = 1;
#define QUEUE_OF(class) (1 + MOST_THREADS + (class))
// The CPUs that some waiting thread of the class may run on, and perhaps more.
static cpumask wanted[2];
static uint32_t believed[MOST_CPUS];
static uint16_t ticks[MOST_CPUS];
static cpumask busy;

struct transaction {
    uint32_t tid;
    uint32_t tseq;
    uint32_t generation;
    uint8_t cpu;
    bool preempt;
};
static uint32_t stamped_count;
// The slot of a CPU holds the transaction of this number.
static uint32_t slot[MOST_CPUS];
static cpumask stamped;
// Those of the stamped slots that land together with others, all of them or none.
static cpumask grouped;

// What may be large stands together, so that a long script has few pages of it brought in.
static _Alignas(LARGE_PAGE) struct {
    // With room behind a script that is too long by a byte: a word is read as eight bytes, and a name as sixteen.
    char input[MOST_BYTES + 64];
    struct transaction transactions[FIRST_ROOM];
    struct message queue[QUEUE];
    // What the kernel and the agent have of a thread, in one line of the processor's cache.
    struct row {
        _Alignas(64) struct thread thread;
        struct record record;
    } rows[1 + MOST_THREADS + 2];
    char out[FLUSH + ONE_EVENT];
} block;
_Static_assert(sizeof(struct row) == 64, "a row is a line of the cache");
#define input (block.input)
#define queue (block.queue)
#define out (block.out)
#define THREAD(tid) (&block.rows[tid].thread)
#define RECORD(tid) (&block.rows[tid].record)
static struct transaction *transactions = block.transactions;
static uint32_t transaction_room = FIRST_ROOM;

static bool reporting;
static uint32_t last_lines = 10;
static uint64_t events, refused, placed, unplaced;

static _Noreturn void stop(enum status status, const char *why)
{
    fprintf(stderr, "ghost: %s\n", why);
    _exit(status);
}

static void write_all(const char *from, size_t length)
{
    while (length > 0) {
        ssize_t n = write(STDOUT_FILENO, from, length);
        if (n <= 0) {
            if (n < 0 && errno == EINTR)
                continue;
            stop(IO_FAULT, "the output could not be written");
        }
        from += n;
        length -= (size_t)n;
    }
}

// ---- writing lines; each function returns the place behind what it wrote ----

#define PUT(s) (memcpy(o, s, sizeof(s) - 1), o += sizeof(s) - 1)

static inline char *put_text(char *o, const struct text *text)
{
    memcpy(o, text->bytes, sizeof text->bytes);
    return o + text->length;
}

static const char PAIRS[200] =
    "0001020304050607080910111213141516171819202122232425262728293031323334353637383940414243444546474849"
    "5051525354555657585960616263646566676869707172737475767778798081828384858687888990919293949596979899";

static char *put_long(char *o, uint64_t n)
{
    char digits[20];
    char *d = digits + sizeof digits;
    while (n >= 100) {
        d -= 2;
        memcpy(d, PAIRS + 2 * (n % 100), 2);
        n /= 100;
    }
    if (n >= 10) {
        d -= 2;
        memcpy(d, PAIRS + 2 * n, 2);
    } else {
        *--d = (char)('0' + n);
    }
    size_t length = (size_t)(digits + sizeof digits - d);
    memcpy(o, d, length);
    return o + length;
}

static inline char *put_number(char *o, uint64_t n)
{
    if (n < 10) {
        *o = (char)('0' + n);
        return o + 1;
    }
    if (n < 100) {
        memcpy(o, PAIRS + 2 * n, 2);
        return o + 2;
    }
    if (n < 100000) {
        uint32_t high = (uint32_t)n / 100;
        const char *low = PAIRS + 2 * ((uint32_t)n - 100 * high);
        if (n >= 10000) {
            *o++ = (char)('0' + high / 100);
            high %= 100;
        }
        if (n >= 1000) {
            memcpy(o, PAIRS + 2 * high, 2);
            o += 2;
        } else {
            *o++ = (char)('0' + high);
        }
        memcpy(o, low, 2);
        return o + 2;
    }
    return put_long(o, n);
}

static const uint64_t TENS[] = {
    1, 10, 100, 1000, 10000, 100000, 1000000, 10000000, 100000000, 1000000000, 10000000000, 100000000000, 1000000000000,
    10000000000000, 100000000000000, 1000000000000000, 10000000000000000, 100000000000000000, 1000000000000000000,
    UINT64_C(10000000000000000000),
};

// The 19 digits of a number, zeros before them.
static char *put_19(char *o, uint64_t n)
{
    char *end = o + 19;
    for (char *d = end; d != o + 1; n /= 100) {
        d -= 2;
        memcpy(d, PAIRS + 2 * (n % 100), 2);
    }
    *o = (char)('0' + n);
    return end;
}

static char *put_long_mask(char *o, cpumask mask);

static inline char *put_mask(char *o, cpumask mask)
{
    return mask >> 64 == 0 ? put_number(o, (uint64_t)mask) : put_long_mask(o, mask);
}

// One of more than 64 bits.
static char *put_long_mask(char *o, cpumask mask)
{
    cpumask front = mask / TENS[19];
    o = put_mask(o, front);
    return put_19(o, (uint64_t)mask - (uint64_t)front * TENS[19]);
}

static inline char *put_cpu(char *o, uint8_t cpu)
{
    if (cpu != NO_CPU)
        return put_number(o, cpu);
    *o = '-';
    return o + 1;
}

static inline char *put_sequence(char *o, uint32_t tid, uint32_t tseq)
{
    o = put_number(o, tid);
    PUT(" seq ");
    return put_number(o, tseq);
}

// What is known of a thread, whose name is in the kernel's row.
static inline char *put_facts(char *o, bool runnable, cpumask mask, unsigned class, const struct thread *t)
{
    if (runnable)
        PUT(" r mask ");
    else
        PUT(" b mask ");
    o = put_mask(o, mask);
    PUT(" class ");
    *o++ = (char)('0' + class);
    PUT(" name ");
    memcpy(o, input + t->name, 16);
    return o + t->name_length;
}

static inline char *refuse(char *o, enum refusal refusal)
{
    refused++;
    return put_text(o, &REFUSED[refusal]);
}

// ---- the ring ----

// The place for a message of so many bytes, which has tid, number and CPU already; null if it does not fit.
static inline struct message *post(enum kind kind, uint32_t length, uint32_t tid, uint32_t tseq, uint8_t cpu)
{
    uint32_t rest = capacity - write_place;
    uint32_t need = length <= rest ? length : rest + length;
    if (unlikely(need > capacity - used_bytes)) {
        torn = true;
        return NULL;
    }
    used_bytes += need;
    write_place = length <= rest ? write_place + length : length;
    struct message *m = &queue[(queue_first + queue_length++) % QUEUE];
    m->tid = tid;
    m->tseq = tseq;
    m->kind = (uint8_t)kind;
    m->cpu = cpu;
    m->bytes = (uint8_t)need;
    m->off = false;
    entries++;
    return m;
}

// ---- the kernel ----

static inline struct thread *living(uint32_t tid)
{
    if (unlikely(tid > created) || unlikely(!THREAD(tid)->alive))
        return NULL;
    return THREAD(tid);
}

static inline void leave_cpu(struct thread *t)
{
    running[t->cpu] = 0;
    t->cpu = NO_CPU;
}

// What would become of a transaction, if it landed alone.
static inline enum outcome verdict(const struct transaction *x)
{
    const struct thread *t = THREAD(x->tid);
    unsigned cpu = x->cpu;
    if (unlikely(torn))
        return IS_GONE;
    if (unlikely(x->generation != generation) || unlikely(role != ACTIVE))
        return IS_DISPLACED;
    if (unlikely(!t->alive))
        return IS_NO_THREAD;
    if (unlikely(x->tseq != t->tseq))
        return IS_STALE;
    if (unlikely(!t->runnable))
        return IS_NOT_RUNNABLE;
    if (unlikely(t->cpu != NO_CPU))
        return IS_ALREADY_PLACED;
    if (unlikely(!has(&t->mask, cpu)))
        return IS_NOT_ALLOWED;
    if (unlikely(cpu == agent))
        return IS_CPU_AGENT;
    if (unlikely(has(&taken, cpu)))
        return IS_CPU_TAKEN;
    uint32_t victim = running[cpu];
    if (victim && unlikely(!x->preempt))
        return IS_CPU_BUSY;
    if (victim && unlikely(THREAD(victim)->tseq == UINT32_MAX))
        return IS_SEQ_SPENT;
    if (unlikely(entries + 1 + (victim != 0) > history))
        return IS_HISTORY_FULL;
    return IS_PLACED;
}

// Whoever is on the CPU is told and leaves it; false if the message does not fit.
static inline bool make_way(unsigned cpu)
{
    uint32_t victim = running[cpu];
    if (victim) {
        struct thread *v = THREAD(victim);
        if (unlikely(!post(PREEMPTED, 16, victim, v->tseq + 1, (uint8_t)cpu)))
            return false;
        v->tseq++;
        leave_cpu(v);
    }
    return true;
}

static inline void place(const struct transaction *x)
{
    entries++;
    running[x->cpu] = x->tid;
    THREAD(x->tid)->cpu = x->cpu;
}

static inline enum outcome land(const struct transaction *x, uint32_t *seen)
{
    *seen = THREAD(x->tid)->tseq;
    enum outcome outcome = verdict(x);
    if (unlikely(outcome != IS_PLACED))
        return outcome;
    if (unlikely(!make_way(x->cpu)))
        return IS_GONE;
    place(x);
    return IS_PLACED;
}

static inline const struct transaction *in_slot(unsigned cpu)
{
    return &transactions[slot[cpu]];
}

// Whether a slot of the group on a lower CPU names the same thread.
static bool is_doubled(cpumask group, const struct transaction *x)
{
    for (; least(group) < x->cpu; group &= group - 1)
        if (in_slot(least(group))->tid == x->tid)
            return true;
    return false;
}

// All slots of the group land, or none of them: what becomes of each, by its CPU. If a message does not fit, those before it
// stay, and nobody is placed.
static void land_group(cpumask group, uint8_t outcomes[MOST_CPUS])
{
    bool is_sound = true;
    uint32_t wanted_entries = 0;
    for (cpumask left = group; left; left &= left - 1) {
        const struct transaction *x = in_slot(least(left));
        enum outcome own = verdict(x);
        // A thread that two slots name has been stamped twice.
        if (own == IS_PLACED && unlikely(RECORD(x->tid)->stamps > 1) && is_doubled(group, x))
            own = IS_GROUP_FAILED;
        outcomes[x->cpu] = (uint8_t)own;
        is_sound &= own == IS_PLACED;
        wanted_entries += 1 + (running[x->cpu] != 0);
    }
    enum outcome all = !is_sound ? IS_GROUP_FAILED : entries + wanted_entries > history ? IS_HISTORY_FULL : IS_PLACED;
    for (cpumask left = group; left && all == IS_PLACED; left &= left - 1)
        if (!make_way(least(left)))
            all = IS_GONE;
    for (cpumask left = group; left; left &= left - 1) {
        unsigned cpu = least(left);
        if (all == IS_PLACED)
            place(in_slot(cpu));
        else if (outcomes[cpu] == IS_PLACED)
            outcomes[cpu] = (uint8_t)all;
    }
}

// ---- the agent ----

static inline void append(uint32_t tid, struct record *r)
{
    uint32_t end = QUEUE_OF(r->class);
    uint32_t last = RECORD(end)->previous;
    r->next = end;
    r->previous = last;
    RECORD(last)->next = tid;
    RECORD(end)->previous = tid;
    wanted[r->class] |= r->mask;
}

static inline void take_out(struct record *r)
{
    RECORD(r->previous)->next = r->next;
    RECORD(r->next)->previous = r->previous;
    r->next = 0;
}

static inline bool known(const struct record *r)
{
    return r->era == era;
}

// A thread that the agent has not known until now.
static inline void meet(uint32_t tid, struct record *r)
{
    r->era = era;
    r->next = 0;
    r->cpu = NO_CPU;
    r->stamps = 0;
    present[(tid - 1) / 64] |= UINT64_C(1) << (tid - 1) % 64;
}

// A thread that has begun to wait goes last of its class, one that no longer waits is taken out.
static inline void requeue(uint32_t tid, struct record *r)
{
    bool waits = known(r) & r->runnable & (r->cpu == NO_CPU) & (r->stamps == 0);
    if (waits == (r->next != 0))
        return;
    if (waits)
        append(tid, r);
    else
        take_out(r);
}

static inline void forget_belief(struct record *r)
{
    if (r->cpu != NO_CPU) {
        believed[r->cpu] = 0;
        drop(&busy, r->cpu);
        r->cpu = NO_CPU;
    }
}

// A thread that landed, or is on a CPU as a page has it, is believed on no other one: it has not left any since its last message.
static inline void believe(unsigned cpu, uint32_t tid, struct record *r)
{
    uint32_t before = believed[cpu];
    ticks[cpu] = 0;
    if (before == tid)
        return;
    believed[cpu] = tid;
    add(&busy, cpu);
    r->cpu = (uint8_t)cpu;
    if (before) {
        RECORD(before)->cpu = NO_CPU;
        requeue(before, RECORD(before));
    }
}

static inline void stamp(unsigned cpu, uint32_t tid, bool preempt, bool group)
{
    struct record *r = RECORD(tid);
    if (unlikely(stamped_count == transaction_room)) {
        struct transaction *more = malloc(2 * (size_t)transaction_room * sizeof *more);
        if (!more)
            stop(NO_MEMORY, "there is no memory for the transactions");
        memcpy(more, transactions, transaction_room * sizeof *more);
        if (transactions != block.transactions)
            free(transactions);
        transactions = more;
        transaction_room *= 2;
    }
    transactions[stamped_count] = (struct transaction){ tid, r->tseq, generation, (uint8_t)cpu, preempt };
    slot[cpu] = stamped_count++;
    add(&stamped, cpu);
    if (unlikely(group))
        add(&grouped, cpu);
    r->stamps++;
    if (r->next)
        take_out(r);
}

static inline void collect(const struct transaction *x, enum outcome outcome)
{
    struct record *r = RECORD(x->tid);
    drop(&stamped, x->cpu);
    r->stamps--;
    if (outcome == IS_PLACED || outcome == IS_ALREADY_PLACED)
        believe(THREAD(x->tid)->cpu, x->tid, r);
    requeue(x->tid, r);
}

// What the agent makes of a message. None is ever more than one number above its record.
enum taken_as { APPLIED, SKIPPED, ORPHAN };

static inline enum taken_as apply(const struct message *m)
{
    if (m->kind == TICK) {
        if (believed[m->cpu] && ticks[m->cpu] < MOST_TICKS)
            ticks[m->cpu]++;
        return APPLIED;
    }
    uint32_t tid = m->tid;
    struct record *r = RECORD(tid);
    if (known(r)) {
        if (unlikely(m->tseq <= r->tseq))
            return SKIPPED;
    } else if (unlikely(m->kind != CREATED)) {
        return ORPHAN;
    }
    r->tseq = m->tseq;
    switch (m->kind) {
    case CREATED:
        meet(tid, r);
        r->mask = m->mask;
        r->class = THREAD(tid)->class;
        r->runnable = m->runnable;
        if (r->runnable)
            append(tid, r);
        break;
    case BLOCKED:
        r->runnable = false;
        forget_belief(r);
        if (r->next)
            take_out(r);
        break;
    case WAKEUP:
        r->runnable = true;
        requeue(tid, r);
        break;
    case PREEMPTED:
    case YIELD:
        forget_belief(r);
        if (r->next)
            take_out(r);
        requeue(tid, r);
        break;
    case DEAD:
        r->era = 0;
        present[(tid - 1) / 64] &= ~(UINT64_C(1) << (tid - 1) % 64);
        forget_belief(r);
        if (r->next)
            take_out(r);
        break;
    case AFFINITY:
        r->mask = m->mask;
        if (r->next)
            wanted[r->class] |= m->mask;
        if (m->off) {
            forget_belief(r);
            requeue(tid, r);
        }
        break;
    }
    return APPLIED;
}

// How many messages were taken in, and of `counts` how many of them each way.
static inline uint32_t drain(uint32_t most, uint32_t counts[3])
{
    uint32_t count = most < queue_length ? most : queue_length;
    for (uint32_t i = 0; i < count; i++) {
        const struct message *m = &queue[queue_first];
        used_bytes -= m->bytes;
        counts[apply(m)]++;
        queue_first = (queue_first + 1) % QUEUE;
    }
    queue_length -= count;
    // What comes next stands where the processor's cache has it.
    if (queue_length == 0)
        queue_first = 0;
    return count;
}

static void empty_queues(void)
{
    for (unsigned class = 0; class < 2; class++)
        RECORD(QUEUE_OF(class))->next = RECORD(QUEUE_OF(class))->previous = QUEUE_OF(class);
}

// Whatever the agent before had in mind is gone; one walk over the threads' bits, and none over the threads.
static void begin(void)
{
    era++;
    memset(present, 0, (created + 63) / 64 * sizeof *present);
    memset(believed, 0, sizeof believed);
    busy = stamped = grouped = 0;
    empty_queues();
    role = ATTACHING;
    generation++;
    next_page = 1;
}

// The agent knows the thread now as the kernel does.
static inline void load(uint32_t tid, const struct thread *t)
{
    struct record *r = RECORD(tid);
    if (!known(r))
        meet(tid, r);
    r->mask = t->mask;
    r->tseq = t->tseq;
    r->class = t->class;
    r->runnable = t->runnable;
    if (t->cpu != NO_CPU)
        believe(t->cpu, tid, r);
    if (r->next)
        wanted[r->class] |= r->mask;
    requeue(tid, r);
}

// The next page of so many threads that are alive; how many it had, and in `next_page` where the one after it begins.
static uint32_t load_page(uint32_t most)
{
    uint32_t count = 0, words = (created + 63) / 64, i = (next_page - 1) / 64;
    uint64_t left = alive[i] & UINT64_MAX << (next_page - 1) % 64;
    for (;; left &= left - 1) {
        while (!left && ++i < words)
            left = alive[i];
        if (!left) {
            next_page = 0;
            return count;
        }
        uint32_t tid = 64 * i + (uint32_t)__builtin_ctzll(left) + 1;
        if (count == most) {
            next_page = tid;
            return count;
        }
        load(tid, THREAD(tid));
        count++;
    }
}

struct choice {
    uint32_t tid;
    uint8_t cpu;
    bool preempt;
};

static inline unsigned plan(struct choice *choices)
{
    cpumask usable = ~(absent | (cpumask)1 << agent | taken | stamped);
    cpumask idle = usable & ~busy;
    // The CPUs that a thread of class 0, and one of class 1, may take from a thread of class 1.
    cpumask gain[2] = { 0, 0 };
    if (two_classes) {
        for (cpumask left = usable & busy; left; left &= left - 1) {
            unsigned cpu = least(left);
            if (RECORD(believed[cpu])->class) {
                add(&gain[0], cpu);
                if (ticks[cpu] >= slice)
                    add(&gain[1], cpu);
            }
        }
    }
    unsigned count = 0;
    for (unsigned class = 0; class < 2; class++) {
        cpumask free = idle, won = gain[class], met = 0;
        uint32_t end = QUEUE_OF(class), tid = RECORD(end)->next;
        for (; tid != end && (free | won) & wanted[class]; tid = RECORD(tid)->next) {
            cpumask mask = RECORD(tid)->mask;
            met |= mask;
            cpumask open = mask & free;
            bool preempt = !open;
            if (preempt)
                open = mask & won;
            if (!open)
                continue;
            cpumask bit = open & -open;
            free &= ~bit;
            won &= ~bit;
            gain[1] &= ~bit;
            choices[count++] = (struct choice){ tid, (uint8_t)least(bit), preempt };
        }
        idle = free;
        if (tid == end)
            wanted[class] = met;
    }
    return count;
}

// ---- faults ----

enum fault { NO_FAULT, BAD_BYTE, NO_HEADER, BAD_WORD, BAD_COUNT, BAD_NUMBER, BAD_NAME, TOO_LONG };
static const char *const FAULT[] = {
    [BAD_BYTE] = "BadByte", [NO_HEADER] = "NoHeader", [BAD_WORD] = "BadWord", [BAD_COUNT] = "BadCount",
    [BAD_NUMBER] = "BadNumber", [BAD_NAME] = "BadName", [TOO_LONG] = "TooLong",
};

enum { MOST_WORDS = 16 };

struct words {
    const char *at[MOST_WORDS];
    unsigned length[MOST_WORDS];
    // All of the line, also those past the ones that are kept: no line that is without a fault has so many.
    unsigned count;
};

static void split(const char *p, struct words *words)
{
    words->count = 0;
    for (;;) {
        while (*p == ' ')
            p++;
        if (*p == '\n')
            return;
        const char *start = p;
        while (*p != ' ' && *p != '\n')
            p++;
        if (words->count < MOST_WORDS) {
            words->at[words->count] = start;
            words->length[words->count] = (unsigned)(p - start);
        }
        words->count++;
    }
}

static bool is(const struct words *words, unsigned i, const char *text)
{
    return words->length[i] == strlen(text) && memcmp(words->at[i], text, words->length[i]) == 0;
}

static bool number_in(const struct words *words, unsigned i, uint64_t lowest, cpumask most, uint64_t *value)
{
    const char *digits = words->at[i];
    unsigned length = words->length[i];
    cpumask n = 0;
    if (length > 1 && digits[0] == '0')
        return false;
    for (unsigned k = 0; k < length; k++) {
        if (digits[k] < '0' || digits[k] > '9')
            return false;
        unsigned digit = (unsigned)(digits[k] - '0');
        if (n > (ALL_MASKS - digit) / 10)
            return false;
        n = 10 * n + digit;
    }
    *value = (uint64_t)n;
    return lowest <= n && n <= most;
}

// The fault of a policy's name, with `i` at its last word then; if there is none, its slice, or 0 for the one without.
static enum fault policy_fault(const struct words *words, unsigned *i, uint64_t *n)
{
    *n = 0;
    if (is(words, *i, "first"))
        return NO_FAULT;
    if (!is(words, *i, "two"))
        return BAD_WORD;
    if (++*i == words->count)
        return BAD_COUNT;
    return number_in(words, *i, 1, 65535, n) ? NO_FAULT : BAD_NUMBER;
}

static enum fault header_fault(const char *line)
{
    static const char *const PARTS[] = { "first-tseq", "first-gen", "history", "policy" };
    static const uint64_t LEAST[] = { 0, 1, 2 };
    static const uint64_t MOST[] = { 4294967294, 4294967295, 16777216 };
    uint64_t numbers[] = { 0, 1, 16777216 };
    struct words words;
    uint64_t n;
    split(line, &words);
    if (!is(&words, 0, "cpus"))
        return NO_HEADER;
    if (words.count < 4)
        return BAD_COUNT;
    if (!number_in(&words, 1, 2, MOST_CPUS, &n))
        return BAD_NUMBER;
    cpus = (uint32_t)n;
    if (!is(&words, 2, "ring"))
        return BAD_WORD;
    if (!number_in(&words, 3, 128, 1048576, &n) || n % 8)
        return BAD_NUMBER;
    capacity = (uint32_t)n;
    unsigned part = 0;
    for (unsigned i = 4; i < words.count; i++) {
        if (part == 4)
            return BAD_COUNT;
        while (part < 4 && !is(&words, i, PARTS[part]))
            part++;
        if (part == 4)
            return BAD_WORD;
        if (++i == words.count)
            return BAD_COUNT;
        if (part < 3) {
            if (!number_in(&words, i, LEAST[part], MOST[part], &numbers[part]))
                return BAD_NUMBER;
        } else {
            enum fault fault = policy_fault(&words, &i, &n);
            if (fault)
                return fault;
            two_classes = n > 0;
            slice = (uint32_t)n;
        }
        part++;
    }
    absent = ~(ALL_MASKS >> (MOST_CPUS - cpus));
    first_tseq = (uint32_t)numbers[0];
    generation = (uint32_t)numbers[1];
    history = (uint32_t)numbers[2];
    return NO_FAULT;
}

// The words after the first, a letter for each: a mask, a class, runnable or not, a name, a CPU, a thread or another
// number, the flags. In small letters one that may be absent. What may stand behind `begin` is not told by a letter for each.
static const char BEGIN[] = "begin";
static const struct { const char *word, *form; } EVENTS[] = {
    { "create", "MKRN" }, { "block", "T" }, { "wake", "T" }, { "yield", "T" }, { "die", "T" }, { "affinity", "TM" },
    { "take", "C" }, { "give", "C" }, { "tick", "C" }, { "handoff", "C" }, { "drain", "T" }, { "decide", "" },
    { "commit", "M" }, { "late", "T" }, { "stamp", "CTp" }, { "view", "" }, { "state", "" }, { "unread", "" },
    { "crash", "" }, { "leave", "" }, { "begin", BEGIN }, { "page", "C" }, { "activate", "C" },
};

static enum fault begin_fault(const struct words *words)
{
    uint64_t n;
    unsigned i = 1;
    if (words->count > 3)
        return BAD_COUNT;
    if (words->count == 1)
        return NO_FAULT;
    enum fault fault = policy_fault(words, &i, &n);
    return fault ? fault : i + 1 < words->count ? BAD_COUNT : NO_FAULT;
}

static enum fault event_fault(const char *line)
{
    struct words words;
    uint64_t n;
    split(line, &words);
    unsigned event = 0;
    while (event < sizeof EVENTS / sizeof *EVENTS && !is(&words, 0, EVENTS[event].word))
        event++;
    if (event == sizeof EVENTS / sizeof *EVENTS)
        return BAD_WORD;
    const char *form = EVENTS[event].form;
    if (form == BEGIN)
        return begin_fault(&words);
    unsigned most = (unsigned)strlen(form) + 1;
    unsigned least = most - (most > 1 && form[most - 2] == 'p');
    if (words.count < least || words.count > most)
        return BAD_COUNT;
    for (unsigned i = 1; i < words.count; i++) {
        switch (form[i - 1]) {
        case 'M':
            if (!number_in(&words, i, 0, ALL_MASKS, &n))
                return BAD_NUMBER;
            break;
        case 'K':
            if (!number_in(&words, i, 0, 1, &n))
                return BAD_NUMBER;
            break;
        case 'C':
            if (!number_in(&words, i, 0, 65535, &n))
                return BAD_NUMBER;
            break;
        case 'T':
            if (!number_in(&words, i, 0, UINT32_MAX, &n))
                return BAD_NUMBER;
            break;
        case 'R':
            if (!is(&words, i, "r") && !is(&words, i, "b"))
                return BAD_WORD;
            break;
        case 'p':
            if (!is(&words, i, "p") && !is(&words, i, "g") && !is(&words, i, "pg"))
                return BAD_WORD;
            break;
        case 'N':
            if (words.length[i] > 16)
                return BAD_NAME;
            break;
        }
    }
    return NO_FAULT;
}

static bool is_passed_over(const char *p)
{
    while (*p == ' ')
        p++;
    return *p == '\n' || *p == '#';
}

static const char *line_after(const char *p)
{
    return (const char *)memchr(p, '\n', MOST_BYTES + 1) + 1;
}

// The first fault of the event lines from here on, and the line that has it.
static enum fault fault_from(const char *p, const char *end, const char **where)
{
    for (; p < end; p = line_after(p)) {
        enum fault fault = is_passed_over(p) ? NO_FAULT : event_fault(p);
        if (fault) {
            *where = p;
            return fault;
        }
    }
    return NO_FAULT;
}

// ---- running ----

static inline bool is_bad(unsigned char byte)
{
    return (unsigned char)(byte - 32) > 94 && byte != '\n';
}

// The first byte that no line may have; `length` if there is none.
static size_t first_bad_byte(const unsigned char *s, size_t length)
{
    for (size_t at = 0; at < length; at += 4096) {
        size_t stop = length - at < 4096 ? length : at + 4096;
        unsigned char bad = 0;
        for (size_t i = at; i < stop; i++)
            bad |= is_bad(s[i]);
        if (bad) {
            while (!is_bad(s[at]))
                at++;
            return at;
        }
    }
    return length;
}

static inline void count_landing(enum outcome outcome)
{
    *(outcome == IS_PLACED ? &placed : &unplaced) += 1;
}

static inline char *put_landing(char *o, const struct transaction *x, enum outcome outcome, uint32_t seen)
{
    count_landing(outcome);
    PUT("cpu ");
    o = put_number(o, x->cpu);
    o = put_text(o, &OUTCOME[outcome]);
    o = put_sequence(o, x->tid, seen);
    *o++ = '\n';
    return o;
}

// The slots of the group land and are collected, before any other slot. No thread of a group makes way for it, so each still has
// the number that it had before.
static char *commit_group(char *o, cpumask group)
{
    uint8_t outcomes[MOST_CPUS];
    land_group(group, outcomes);
    for (cpumask left = group; left; left &= left - 1) {
        const struct transaction *x = in_slot(least(left));
        o = put_landing(o, x, outcomes[x->cpu], THREAD(x->tid)->tseq);
        collect(x, outcomes[x->cpu]);
    }
    grouped &= ~group;
    return o;
}

// What is behind the last lines that the report asks for, moved to the front.
static char *keep_last_lines(char *o)
{
    char *start = o;
    uint32_t lines = 0;
    while (start > out && (start[-1] != '\n' || lines++ < last_lines))
        start--;
    memmove(out, start, (size_t)(o - start));
    return out + (o - start);
}

static char *spill(char *o)
{
    if (reporting)
        return keep_last_lines(o);
    write_all(out, (size_t)(o - out));
    return out;
}

#define DIGIT(p) ((unsigned)(unsigned char)*(p) - '0')

// The rest of a mask whose first 19 digits have this value and are not all; null if it is too great. If it has more digits than
// any mask, the place is that of one of them, so that no word ends there.
static const char *long_mask(const char *p, cpumask *mask)
{
    const char *first = p;
    unsigned digit;
    uint64_t more = 0;
    while ((digit = DIGIT(p)) <= 9 && p - first < 19) {
        more = 10 * more + digit;
        p++;
    }
    cpumask value = *mask * TENS[p - first] + more;
    if (digit <= 9) {
        if (value > ALL_MASKS / 10 || (value == ALL_MASKS / 10 && digit > ALL_MASKS % 10))
            return NULL;
        value = 10 * value + digit;
        p++;
    }
    *mask = value;
    return p;
}

// Numbers from left to right; `goto odd` if the line is at fault, or is not an event.
#define END_WORD() do { if (unlikely((unsigned char)*p > ' ')) goto odd; while (*p == ' ') p++; } while (0)
#define NUMBER(n, most) \
    do { \
        const char *first = p; \
        unsigned digit = DIGIT(p); \
        if (unlikely(digit > 9)) goto odd; \
        uint64_t value = digit; \
        if (likely(digit != 0)) { \
            while ((digit = DIGIT(++p)) <= 9) value = 10 * value + digit; \
            if (unlikely(p - first > 10) || unlikely(value > (most))) goto odd; \
        } else { \
            p++; \
        } \
        END_WORD(); \
        n = (uint32_t)value; \
    } while (0)
#define MASK(n) \
    do { \
        const char *first = p; \
        unsigned digit = DIGIT(p); \
        if (unlikely(digit > 9)) goto odd; \
        uint64_t value = digit; \
        if (likely(digit != 0)) { \
            while ((digit = DIGIT(++p)) <= 9 && p - first < 19) value = 10 * value + digit; \
            n = value; \
            if (unlikely(digit <= 9) && !(p = long_mask(p, &n))) goto odd; \
        } else { \
            p++; \
            n = 0; \
        } \
        END_WORD(); \
    } while (0)
#define END_LINE() do { if (unlikely(*p != '\n')) goto odd; p++; events++; } while (0)
#define REFUSE(refusal) do { o = refuse(o, refusal); goto next; } while (0)
#define REFUSE_IF(condition, refusal) do { if (unlikely(condition)) REFUSE(refusal); } while (0)
// The living thread that the next word names.
#define LIVING_THREAD() do { NUMBER(tid, UINT32_MAX); t = living(tid); } while (0)
// The thread's next message, in `m`.
#define NEXT_MESSAGE(kind, bytes, cpu) do { \
        REFUSE_IF(t->tseq == UINT32_MAX, SEQ_SPENT); \
        REFUSE_IF(entries >= history, HISTORY_FULL); \
        m = post(kind, bytes, tid, t->tseq + 1, cpu); \
        if (unlikely(!m)) \
            goto tear; \
        t->tseq++; \
    } while (0)
// Whoever is on the CPU makes way, if it can be had, and no generation that is wanted is spent.
#define FREE_SEAT(spent) do { \
        REFUSE_IF(cpu >= cpus, BAD_CPU); \
        REFUSE_IF(cpu == agent, AGENT_THERE); \
        REFUSE_IF(has(&taken, cpu), CPU_TAKEN); \
        tid = running[cpu]; \
        REFUSE_IF(tid && THREAD(tid)->tseq == UINT32_MAX, SEQ_SPENT); \
        REFUSE_IF(spent, GEN_SPENT); \
        REFUSE_IF(entries + 2 > history, HISTORY_FULL); \
        if (tid) { \
            t = THREAD(tid); \
            if (unlikely(!post(PREEMPTED, 16, tid, t->tseq + 1, (uint8_t)cpu))) \
                goto tear; \
            t->tseq++; \
            leave_cpu(t); \
        } \
    } while (0)
// A reply that ends in a number, and one that ends in the thread and its number.
#define PUT_WITH(text, number) do { PUT(text); o = put_number(o, number); *o++ = '\n'; } while (0)
#define PUT_THREAD(text) do { PUT(text); o = put_sequence(o, tid, t->tseq); *o++ = '\n'; } while (0)

#define PUT_AGENT() do { \
        PUT("agent "); \
        o = put_number(o, agent); \
        PUT_WITH(" generation ", generation); \
    } while (0)

// The words of the events as numbers, and their place in a table of 32.
#define W(a, b, c, d, e, f, g, h) \
    ((uint64_t)a | (uint64_t)b << 8 | (uint64_t)c << 16 | (uint64_t)d << 24 | (uint64_t)e << 32 | (uint64_t)f << 40 \
     | (uint64_t)g << 48 | (uint64_t)h << 56)
#define HASH(w) ((w) * UINT64_C(0x169e0c7dad7d6965) >> 59)
enum {
    E_LEAVE = 0, E_DRAIN = 1, E_COMMIT = 2, E_UNREAD = 3, E_BEGIN = 4, E_WAKE = 6, E_YIELD = 7, E_GIVE = 8,
    E_PAGE = 12, E_TICK = 13, E_AFFINITY = 17, E_DIE = 18, E_VIEW = 19, E_LATE = 21, E_HANDOFF = 23, E_CREATE = 24,
    E_CRASH = 25, E_DECIDE = 26, E_BLOCK = 27, E_STATE = 28, E_STAMP = 29, E_TAKE = 30, E_ACTIVATE = 31,
};
static const uint64_t WORDS[32] = {
    [E_TICK] = W('t', 'i', 'c', 'k', 0, 0, 0, 0),
    [E_LATE] = W('l', 'a', 't', 'e', 0, 0, 0, 0),
    [E_YIELD] = W('y', 'i', 'e', 'l', 'd', 0, 0, 0),
    [E_UNREAD] = W('u', 'n', 'r', 'e', 'a', 'd', 0, 0),
    [E_TAKE] = W('t', 'a', 'k', 'e', 0, 0, 0, 0),
    [E_WAKE] = W('w', 'a', 'k', 'e', 0, 0, 0, 0),
    [E_DIE] = W('d', 'i', 'e', 0, 0, 0, 0, 0),
    [E_DECIDE] = W('d', 'e', 'c', 'i', 'd', 'e', 0, 0),
    [E_STAMP] = W('s', 't', 'a', 'm', 'p', 0, 0, 0),
    [E_CREATE] = W('c', 'r', 'e', 'a', 't', 'e', 0, 0),
    [E_BLOCK] = W('b', 'l', 'o', 'c', 'k', 0, 0, 0),
    [E_DRAIN] = W('d', 'r', 'a', 'i', 'n', 0, 0, 0),
    [E_VIEW] = W('v', 'i', 'e', 'w', 0, 0, 0, 0),
    [E_STATE] = W('s', 't', 'a', 't', 'e', 0, 0, 0),
    [E_AFFINITY] = W('a', 'f', 'f', 'i', 'n', 'i', 't', 'y'),
    [E_GIVE] = W('g', 'i', 'v', 'e', 0, 0, 0, 0),
    [E_COMMIT] = W('c', 'o', 'm', 'm', 'i', 't', 0, 0),
    [E_HANDOFF] = W('h', 'a', 'n', 'd', 'o', 'f', 'f', 0),
    [E_CRASH] = W('c', 'r', 'a', 's', 'h', 0, 0, 0),
    [E_LEAVE] = W('l', 'e', 'a', 'v', 'e', 0, 0, 0),
    [E_BEGIN] = W('b', 'e', 'g', 'i', 'n', 0, 0, 0),
    [E_PAGE] = W('p', 'a', 'g', 'e', 0, 0, 0, 0),
    [E_ACTIVATE] = W('a', 'c', 't', 'i', 'v', 'a', 't', 'e'),
};

// The line of a fault if there is one, else null; `*behind` is then the place behind the output.
static const char *run(const char *p, const char *end, char **behind, enum fault *fault)
{
    char *o = out;
    bool sound = false;
    const char *line = p;
    while (p < end) {
        uint64_t word, low;
        uint32_t tid, n, cpu;
        cpumask mask;
        struct thread *t;
        struct message *m;

        line = p;
        if (unlikely(o > out + FLUSH)) {
            if (!sound && (*fault = fault_from(p, end, &line)))
                return line;
            sound = true;
            o = spill(o);
        }
        memcpy(&word, p, 8);
        // The first byte that is a space or ends the line has its top bit here.
        low = (word - UINT64_C(0x2121212121212121)) & ~word & UINT64_C(0x8080808080808080);
        if (likely(low)) {
            unsigned bits = (unsigned)__builtin_ctzll(low) & ~7u;
            word &= (UINT64_C(1) << bits) - 1;
            p += bits / 8;
        } else {
            p += 8;
            if (unlikely((unsigned char)*p > ' '))
                goto odd;
        }
        while (*p == ' ')
            p++;
        unsigned event = (unsigned)HASH(word);
        if (unlikely(WORDS[event] != word))
            goto odd;

        switch (event) {
        case E_CREATE: {
            MASK(mask);
            unsigned class = DIGIT(p);
            if (unlikely(class > 1))
                goto odd;
            p++;
            END_WORD();
            bool runnable = *p == 'r';
            if (unlikely(!runnable && *p != 'b'))
                goto odd;
            p++;
            END_WORD();
            const char *name = p;
            while ((unsigned char)*p > ' ')
                p++;
            unsigned length = (unsigned)(p - name);
            if (unlikely(length - 1 > 15))
                goto odd;
            END_WORD();
            END_LINE();
            REFUSE_IF(!mask || mask & absent, EMPTY_MASK);
            REFUSE_IF(created == MOST_THREADS, TIDS_SPENT);
            REFUSE_IF(entries >= history, HISTORY_FULL);
            // The name `-` is the empty one, and is shown so; it has as much room as a name of one byte.
            uint32_t at = (uint32_t)(name - input);
            tid = created + 1;
            m = post(CREATED, (34 + length + 7) & ~7u, tid, first_tseq + 1, NO_CPU);
            if (unlikely(!m))
                goto tear;
            m->mask = mask;
            m->runnable = runnable;
            created = tid;
            *THREAD(tid) = (struct thread){ mask, first_tseq + 1, at, (uint8_t)length, (uint8_t)class, NO_CPU, true, runnable };
            alive[(tid - 1) / 64] |= UINT64_C(1) << (tid - 1) % 64;
            PUT("created ");
            o = put_sequence(o, tid, first_tseq + 1);
            *o++ = '\n';
            break;
        }
        case E_BLOCK:
        case E_YIELD: {
            bool blocks = event == E_BLOCK;
            LIVING_THREAD();
            END_LINE();
            REFUSE_IF(!t, NO_THREAD);
            REFUSE_IF(t->cpu == NO_CPU, NOT_RUNNING);
            NEXT_MESSAGE(blocks ? BLOCKED : YIELD, 16, t->cpu);
            leave_cpu(t);
            if (blocks) {
                t->runnable = false;
                PUT_THREAD("blocked ");
            } else {
                PUT_THREAD("yielded ");
            }
            break;
        }
        case E_WAKE:
            LIVING_THREAD();
            END_LINE();
            REFUSE_IF(!t, NO_THREAD);
            REFUSE_IF(t->runnable, NOT_BLOCKED);
            NEXT_MESSAGE(WAKEUP, 16, NO_CPU);
            t->runnable = true;
            PUT_THREAD("woken ");
            break;
        case E_DIE:
            LIVING_THREAD();
            END_LINE();
            REFUSE_IF(!t, NO_THREAD);
            NEXT_MESSAGE(DEAD, 16, t->cpu);
            if (t->cpu != NO_CPU)
                leave_cpu(t);
            t->alive = false;
            alive[(tid - 1) / 64] &= ~(UINT64_C(1) << (tid - 1) % 64);
            PUT_THREAD("dead ");
            break;
        case E_AFFINITY: {
            LIVING_THREAD();
            MASK(mask);
            END_LINE();
            REFUSE_IF(!t, NO_THREAD);
            REFUSE_IF(!mask || mask & absent, EMPTY_MASK);
            uint8_t from = t->cpu;
            NEXT_MESSAGE(AFFINITY, 32, from);
            m->mask = mask;
            t->mask = mask;
            PUT("affinity ");
            o = put_sequence(o, tid, t->tseq);
            if (from != NO_CPU && !has(&mask, from)) {
                m->off = true;
                leave_cpu(t);
                PUT(" off ");
                o = put_number(o, from);
            }
            *o++ = '\n';
            break;
        }
        case E_TAKE: {
            NUMBER(cpu, 65535);
            END_LINE();
            FREE_SEAT(false);
            add(&taken, cpu);
            entries++;
            PUT_WITH("taken ", cpu);
            break;
        }
        case E_HANDOFF: {
            NUMBER(cpu, 65535);
            END_LINE();
            REFUSE_IF(role != ACTIVE, NOT_ACTIVE);
            FREE_SEAT(generation == UINT32_MAX);
            agent = (uint8_t)cpu;
            generation++;
            entries++;
            PUT_AGENT();
            break;
        }
        case E_CRASH:
        case E_LEAVE:
            END_LINE();
            REFUSE_IF(role == NOBODY, NOT_ACTIVE);
            REFUSE_IF(event == E_LEAVE && stamped, SLOT_OPEN);
            REFUSE_IF(entries >= history, HISTORY_FULL);
            role = NOBODY;
            agent = NO_CPU;
            entries++;
            if (event == E_LEAVE)
                PUT("left\n");
            else
                PUT("crashed\n");
            break;
        case E_BEGIN: {
            bool named = *p != '\n', two = *p == 't';
            n = slice;
            if (named) {
                if (memcmp(p, two ? "two" : "first", two ? 3 : 5) != 0)
                    goto odd;
                p += two ? 3 : 5;
                END_WORD();
                if (two) {
                    NUMBER(n, 65535);
                    if (unlikely(n == 0))
                        goto odd;
                }
            }
            END_LINE();
            REFUSE_IF(role != NOBODY, STILL_ATTACHED);
            REFUSE_IF(generation == UINT32_MAX, GEN_SPENT);
            REFUSE_IF(entries >= history, HISTORY_FULL);
            if (named)
                two_classes = two;
            slice = n;
            begin();
            entries++;
            PUT_WITH("begun generation ", generation);
            break;
        }
        case E_PAGE:
            NUMBER(n, 65535);
            END_LINE();
            REFUSE_IF(role != ATTACHING || !next_page, NOT_ATTACHING);
            PUT("page ");
            o = put_number(o, load_page(n));
            if (next_page)
                PUT_WITH(" next ", next_page);
            else
                PUT(" end\n");
            break;
        case E_ACTIVATE: {
            NUMBER(cpu, 65535);
            END_LINE();
            REFUSE_IF(role != ATTACHING || next_page, NOT_ATTACHING);
            FREE_SEAT(false);
            role = ACTIVE;
            agent = (uint8_t)cpu;
            entries++;
            PUT_AGENT();
            break;
        }
        case E_GIVE:
            NUMBER(cpu, 65535);
            END_LINE();
            REFUSE_IF(cpu >= cpus, BAD_CPU);
            REFUSE_IF(!has(&taken, cpu), NOT_TAKEN);
            REFUSE_IF(entries >= history, HISTORY_FULL);
            drop(&taken, cpu);
            entries++;
            PUT_WITH("given ", cpu);
            break;
        case E_TICK:
            NUMBER(cpu, 65535);
            END_LINE();
            REFUSE_IF(cpu >= cpus, BAD_CPU);
            REFUSE_IF(entries >= history, HISTORY_FULL);
            if (unlikely(!post(TICK, 16, 0, 0, (uint8_t)cpu)))
                goto tear;
            PUT_WITH("tick ", cpu);
            break;
        case E_DRAIN: {
            uint32_t counts[3] = { 0, 0, 0 };
            NUMBER(n, UINT32_MAX);
            END_LINE();
            REFUSE_IF(role == NOBODY, NOT_ACTIVE);
            PUT("drained ");
            o = put_number(o, drain(n, counts));
            if (counts[SKIPPED]) {
                PUT(" skipped ");
                o = put_number(o, counts[SKIPPED]);
            }
            if (counts[ORPHAN]) {
                PUT(" orphans ");
                o = put_number(o, counts[ORPHAN]);
            }
            *o++ = '\n';
            break;
        }
        case E_STAMP: {
            NUMBER(cpu, 65535);
            NUMBER(tid, UINT32_MAX);
            bool preempt = *p == 'p';
            p += preempt;
            bool group = *p == 'g';
            p += group;
            if (preempt | group)
                END_WORD();
            END_LINE();
            REFUSE_IF(role != ACTIVE, NOT_ACTIVE);
            REFUSE_IF(cpu >= cpus, BAD_CPU);
            REFUSE_IF(tid > MOST_THREADS || !known(RECORD(tid)), NO_THREAD);
            REFUSE_IF(has(&stamped, cpu), SLOT_OPEN);
            REFUSE_IF(stamped_count >= history, HISTORY_FULL);
            stamp(cpu, tid, preempt, group);
            PUT_WITH("stamped ", stamped_count);
            break;
        }
        case E_DECIDE: {
            struct choice choices[MOST_CPUS];
            END_LINE();
            REFUSE_IF(role != ACTIVE, NOT_ACTIVE);
            unsigned count = plan(choices);
            REFUSE_IF(count && stamped_count + count > history, HISTORY_FULL);
            PUT_WITH("decided ", count);
            for (unsigned i = 0; i < count; i++) {
                const struct choice *c = &choices[i];
                stamp(c->cpu, c->tid, c->preempt, false);
                PUT("stamped ");
                o = put_number(o, stamped_count);
                PUT(" cpu ");
                o = put_number(o, c->cpu);
                PUT(" thread ");
                o = put_number(o, c->tid);
                if (c->preempt)
                    PUT(" preempt");
                *o++ = '\n';
            }
            break;
        }
        case E_COMMIT:
            MASK(mask);
            END_LINE();
            REFUSE_IF(role != ACTIVE, NOT_ACTIVE);
            REFUSE_IF(mask & absent, EMPTY_MASK);
            mask &= stamped;
            if (unlikely((mask & grouped) != 0)) {
                o = commit_group(o, mask & grouped);
                mask &= stamped;
            }
            for (; mask; mask &= mask - 1) {
                const struct transaction *x = in_slot(least(mask));
                uint32_t seen;
                enum outcome outcome = land(x, &seen);
                o = put_landing(o, x, outcome, seen);
                collect(x, outcome);
            }
            if (unlikely(torn))
                goto tear;
            break;
        case E_LATE: {
            NUMBER(n, UINT32_MAX);
            END_LINE();
            REFUSE_IF(n - 1 >= stamped_count, NO_SUCH_TRANSACTION);
            const struct transaction *x = &transactions[n - 1];
            uint32_t seen;
            enum outcome outcome = land(x, &seen);
            count_landing(outcome);
            PUT("late ");
            o = put_number(o, n);
            o = put_text(o, &OUTCOME[outcome]);
            o = put_sequence(o, x->tid, seen);
            *o++ = '\n';
            if (unlikely(torn))
                goto tear;
            break;
        }
        case E_VIEW:
            END_LINE();
            REFUSE_IF(role == NOBODY, NOT_ACTIVE);
            for (uint32_t i = 0; i < (created + 63) / 64; i++) {
                for (uint64_t left = present[i]; left; left &= left - 1) {
                    tid = 64 * i + (uint32_t)__builtin_ctzll(left) + 1;
                    const struct record *r = RECORD(tid);
                    PUT("view ");
                    o = put_sequence(o, tid, r->tseq);
                    o = put_facts(o, r->runnable, r->mask, r->class, THREAD(tid));
                    *o++ = '\n';
                }
            }
            break;
        case E_STATE:
            END_LINE();
            for (uint32_t i = 0; i < (created + 63) / 64; i++) {
                for (uint64_t left = alive[i]; left; left &= left - 1) {
                    tid = 64 * i + (uint32_t)__builtin_ctzll(left) + 1;
                    t = THREAD(tid);
                    PUT("state ");
                    o = put_sequence(o, tid, t->tseq);
                    o = put_facts(o, t->runnable, t->mask, t->class, t);
                    PUT(" cpu ");
                    o = put_cpu(o, t->cpu);
                    *o++ = '\n';
                }
            }
            break;
        case E_UNREAD:
            END_LINE();
            for (uint32_t i = 0; i < queue_length; i++) {
                m = &queue[(queue_first + i) % QUEUE];
                o = put_text(o, &KIND[m->kind]);
                o = put_sequence(o, m->tid, m->tseq);
                PUT(" cpu ");
                o = put_cpu(o, m->cpu);
                *o++ = '\n';
            }
            break;
        default:
            __builtin_unreachable();
        }
    next:
        continue;

    odd:
        if (!is_passed_over(line)) {
            *fault = event_fault(line);
            if (*fault)
                return line;
            // Spaces stand before the first word; an event's line is run from its word on.
            p = line;
            if (*p != ' ')
                abort();
            while (*p == ' ')
                p++;
            continue;
        }
        p = line_after(line);
    }
    *behind = o;
    return NULL;

tear:
    PUT("torn\n");
    *fault = fault_from(p, end, &line);
    if (*fault)
        return line;
    // The replies to all lines of a script take less than what one event may.
    for (; p < end; p = line_after(p)) {
        if (!is_passed_over(p)) {
            events++;
            o = refuse(o, GONE);
        }
    }
    *behind = o;
    return NULL;
}

static void write_report(char *o)
{
    static char report[128 * 1000 * 2 + 1024];
    char *r = report;
    const char *from = out;
    o = keep_last_lines(o);
    r += sprintf(r, "{\"events\":%llu,\"last\":[", (unsigned long long)events);
    while (from < o) {
        *r++ = '"';
        for (; *from != '\n'; from++) {
            if (*from == '"' || *from == '\\')
                *r++ = '\\';
            *r++ = *from;
        }
        from++;
        *r++ = '"';
        if (from < o)
            *r++ = ',';
    }
    r += sprintf(r, "],\"placed\":%llu,\"refused\":%llu,\"torn\":%s,\"unplaced\":%llu}\n", (unsigned long long)placed,
                 (unsigned long long)refused, torn ? "true" : "false", (unsigned long long)unplaced);
    write_all(report, (size_t)(r - report));
}

static enum status faulted(const char *line, enum fault fault)
{
    char text[64];
    unsigned long number = 1;
    for (const char *p = input; p < line; p++)
        number += *p == '\n';
    int length = snprintf(text, sizeof text, "fault line %lu %s\n", line ? number : 0, FAULT[fault]);
    write_all(text, (size_t)length);
    return SCRIPT_FAULT;
}

// Reads up to so many bytes, and returns how many there were.
static size_t read_all(char *to, size_t most)
{
    size_t length = 0;
    while (length < most) {
        ssize_t n = read(STDIN_FILENO, to + length, most - length);
        if (n == 0)
            break;
        if (n > 0)
            length += (size_t)n;
        else if (errno != EINTR)
            stop(IO_FAULT, "the input could not be read");
    }
    return length;
}

static enum status answer(void)
{
    struct stat about;
    if (fstat(STDIN_FILENO, &about) == 0 && S_ISREG(about.st_mode) && about.st_size > SHORT_SCRIPT)
        madvise(&block, sizeof block, MADV_HUGEPAGE);
    size_t length = read_all(input, MOST_BYTES + 1);
    if (length > MOST_BYTES)
        return faulted(NULL, TOO_LONG);
    input[length] = '\n';

    // Up to the line with the first bad byte.
    const char *end = input + length, *bad = input + first_bad_byte((const unsigned char *)input, length);
    bool has_bad = bad < end;
    if (has_bad) {
        while (bad != input && bad[-1] != '\n')
            bad--;
        end = bad;
    }
    const char *p = input;
    while (p < end && is_passed_over(p))
        p = line_after(p);
    if (p >= end)
        return has_bad ? faulted(bad, BAD_BYTE) : faulted(NULL, NO_HEADER);
    enum fault fault = header_fault(p);
    if (fault)
        return faulted(p, fault);
    const char *line = NULL;
    if (has_bad) {
        fault = fault_from(line_after(p), end, &line);
        return fault ? faulted(line, fault) : faulted(bad, BAD_BYTE);
    }

    empty_queues();
    char *behind = out;
    line = run(line_after(p), end, &behind, &fault);
    if (line)
        return faulted(line, fault);
    if (reporting)
        write_report(behind);
    else
        write_all(out, (size_t)(behind - out));
    return RAN;
}

int main(int count, char **words)
{
    if (count == 2 && strcmp(words[1], "run") == 0)
        return answer();
    if ((count == 2 || count == 4) && strcmp(words[1], "report") == 0) {
        reporting = true;
        if (count == 2)
            return answer();
        char *rest;
        long n = strtol(words[3], &rest, 10);
        if (strcmp(words[2], "--last") == 0 && words[3][0] != ' ' && !*rest && 1 <= n && n <= 1000) {
            last_lines = (uint32_t)n;
            return answer();
        }
    }
    stop(WRONG_ARGUMENTS, "usage: ghost run, or ghost report [--last N] with N from 1 to 1000");
}
