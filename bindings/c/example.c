/* How C calls the check: reads instance.txt and plan.txt of the folder that is given, and prints the answer; then the bad line, if there is
 * one, or both files as the table gives them back, if they can be read. Built from the top of the repository by
 *     cc bindings/c/example.c -Ibindings/c target/staticlib/libkaqlluwe.a -o target/example */
#include "kaqlluwe.h"

#include <inttypes.h>
#include <stdio.h>

/* One byte more than a file may have shows that it is overlong. */
#define FILE_BYTES (KAQLLUWE_FILE_BYTES + 1)

static uint8_t instance[FILE_BYTES], plan[FILE_BYTES];
static uint32_t table[KAQLLUWE_TABLE_WORDS];

/* How many bytes of the file stand in the buffer now; none where there is no such file. */
static size_t read_file(const char *folder, const char *name, uint8_t *buffer)
{
    char path[4096];
    int length = snprintf(path, sizeof path, "%s/%s", folder, name);
    FILE *file = length < (int)sizeof path ? fopen(path, "rb") : NULL;
    if (file == NULL)
        return 0;
    size_t bytes = fread(buffer, 1, FILE_BYTES, file);
    fclose(file);
    return bytes;
}

int main(int count, char **arguments)
{
    const char *folder = count > 1 ? arguments[1] : ".";
    size_t instance_bytes = read_file(folder, "instance.txt", instance);
    size_t plan_bytes = read_file(folder, "plan.txt", plan);

    kaqlluwe_answer answer = kaqlluwe_check(instance, instance_bytes, plan, plan_bytes, table, KAQLLUWE_TABLE_WORDS);
    printf("number=%" PRIu32 "\nfirst=%" PRIu32 "\nsecond=%" PRIu32 "\nthird=%" PRIu32 "\n", answer.number, answer.first,
           answer.second, answer.third);
    printf("cost=%" PRIu64 "\ntrucks=%" PRIu32 "\n", answer.cost, answer.trucks);

    kaqlluwe_part line = kaqlluwe_bad_line(instance, instance_bytes, plan, plan_bytes, answer.number, answer.first);
    if (line.start < line.end)
        printf("%.*s\n", (int)(line.end - line.start), (const char *)(line.plan ? plan : instance) + line.start);

    kaqlluwe_written written = kaqlluwe_write(table, KAQLLUWE_TABLE_WORDS, instance, FILE_BYTES, plan, FILE_BYTES);
    fwrite(instance, 1, written.instance_length, stdout);
    fwrite(plan, 1, written.plan_length, stdout);
    return answer.number == 0 ? 0 : 1;
}
