/* For the tests: makes the calls that come on standard input, one after the other, until it ends. All numbers are in the machine's order
 * of bytes, and those that are no words of a table have 64 bits.
 *
 * A call begins with four numbers: 0 for a check or 1 for the writer; then how many bytes the instance, how many bytes the plan, and how
 * many words the table has. Then come these bytes and words as they are before the call; to the writer the files are its buffers.
 *
 * A check is answered by the six numbers; the words of the table after the call; and the bad line of that answer: 1 for the plan or 0 for
 * the instance, its start and its end. The writer is answered by its three numbers, and the buffers and the table after the call. */
#include "kaqlluwe.h"

#include <stdio.h>
#include <stdlib.h>

/* Room for so many bytes, filled from standard input. Never null: a length of 0 has a pointer too. */
static void *take(size_t bytes)
{
    void *room = malloc(bytes > 0 ? bytes : 1);
    if (room == NULL || fread(room, 1, bytes, stdin) != bytes)
        exit(1);
    return room;
}

static void give(const void *from, size_t bytes)
{
    if (fwrite(from, 1, bytes, stdout) != bytes)
        exit(1);
}

/* What a call is lent. */
typedef struct {
    size_t instance_bytes, plan_bytes, table_words;
    uint8_t *instance, *plan;
    uint32_t *table;
} lent;

static void respond_to_check(lent call)
{
    kaqlluwe_answer answer = kaqlluwe_check(call.instance, call.instance_bytes, call.plan, call.plan_bytes, call.table,
                                            call.table_words);
    uint64_t numbers[] = {answer.number, answer.first, answer.second, answer.third, answer.cost, answer.trucks};
    give(numbers, sizeof numbers);
    give(call.table, call.table_words * sizeof *call.table);

    kaqlluwe_part line = kaqlluwe_bad_line(call.instance, call.instance_bytes, call.plan, call.plan_bytes, answer.number,
                                           answer.first);
    uint64_t part[] = {line.plan, line.start, line.end};
    give(part, sizeof part);
}

static void respond_to_writer(lent call)
{
    kaqlluwe_written written = kaqlluwe_write(call.table, call.table_words, call.instance, call.instance_bytes, call.plan,
                                              call.plan_bytes);
    uint64_t numbers[] = {written.number, written.instance_length, written.plan_length};
    give(numbers, sizeof numbers);
    give(call.instance, call.instance_bytes);
    give(call.plan, call.plan_bytes);
    give(call.table, call.table_words * sizeof *call.table);
}

int main(void)
{
    uint64_t numbers[4];
    while (fread(numbers, sizeof numbers[0], 4, stdin) == 4) {
        lent call = {.instance_bytes = numbers[1], .plan_bytes = numbers[2], .table_words = numbers[3]};
        call.instance = take(call.instance_bytes);
        call.plan = take(call.plan_bytes);
        call.table = take(call.table_words * sizeof *call.table);
        if (numbers[0] == 0)
            respond_to_check(call);
        else
            respond_to_writer(call);
        fflush(stdout);
        free(call.instance);
        free(call.plan);
        free(call.table);
    }
    return 0;
}
