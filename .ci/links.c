/* Tries what include/kelombary.h says of an answer, a buffer, memory and stack. It is compiled as C and as C++. */
#include "kelombary.h"

#include <pthread.h>
#include <stdio.h>
#include <stdlib.h>
#include <string.h>

/* What the buffer is filled with before each call. */
#define MARK 0xA5

/* What a thread needs of its stack for itself. */
#define THREAD_STACK 16384

static uint8_t file[KELOMBARY_FILE_MOST + 1];
static size_t file_length;
static uint8_t buffer[KELOMBARY_LISTING_MOST];

static void expect(int so, const char *what)
{
    if (!so) {
        printf("%s\n", what);
        exit(1);
    }
}

/* Memory. */

/* Since a call began: how many bytes it has taken in how many blocks, and how many blocks it holds. It is given so many and no more. */
static size_t bytes, blocks, held, most_blocks;

#ifdef __cplusplus
extern "C" {
#endif

/* The linker has calls of malloc and free come to the two that are wrapped. */
void *__real_malloc(size_t size);
void __real_free(void *block);

void *__wrap_malloc(size_t size)
{
    if (blocks == most_blocks)
        return NULL;
    bytes += size;
    blocks++;
    held++;
    return __real_malloc(size);
}

void __wrap_free(void *block)
{
    if (block != NULL)
        held--;
    __real_free(block);
}

#ifdef __cplusplus
}
#endif

/* Calls. */

/* Lists the file into so many bytes of the buffer, with so many blocks of memory. Whatever is answered, bytes behind a listing stay. */
static struct kelombary_answer list_with(size_t room, size_t given)
{
    struct kelombary_answer answer;
    size_t place;
    memset(buffer, MARK, sizeof buffer);
    bytes = blocks = held = 0;
    most_blocks = given;
    answer = kelombary_list(file, file_length, buffer, room);
    expect(held == 0, "a call keeps memory");
    expect(bytes <= KELOMBARY_MEMORY_MOST, "a call takes more memory than the header says");
    for (place = answer.length; place < sizeof buffer; place++)
        expect(buffer[place] == MARK, "a byte behind the listing is changed");
    return answer;
}

/* The length of the file's listing, which has so much room. */
static size_t listed(size_t room)
{
    struct kelombary_answer answer = list_with(room, SIZE_MAX);
    expect(answer.number == KELOMBARY_LISTED, "there is no listing");
    return answer.length;
}

static void refused(uint32_t number, size_t room, size_t given)
{
    struct kelombary_answer answer = list_with(room, given);
    expect(answer.number == number, "another number is answered than the header says");
    expect(answer.length == 0, "a refused call answers a length");
}

/* Whether the file's listing is this text. */
static int lists(const char *text)
{
    return listed(sizeof buffer) == strlen(text) && memcmp(buffer, text, strlen(text)) == 0;
}

/* Files. */

static void try_rooms(void)
{
    size_t length = listed(sizeof buffer);
    expect(listed(length) == length, "a buffer that is just long enough has another listing");
    refused(KELOMBARY_BUFFER_TOO_SHORT, length - 1, SIZE_MAX);
    refused(KELOMBARY_BUFFER_TOO_SHORT, 0, SIZE_MAX);
}

/* With fewer blocks than a call takes, however many, memory is lacking. */
static void try_memory(void)
{
    size_t needed, given;
    listed(sizeof buffer);
    needed = blocks;
    expect(needed > 0, "a call takes no memory, or not by malloc");
    for (given = 0; given < needed; given++)
        refused(KELOMBARY_NO_MEMORY, sizeof buffer, given);
}

static void add(const void *record, size_t length)
{
    memcpy(file + file_length, record, length);
    file_length += length;
}

/* A form record of an implication between two formulas. */
static void add_implication(unsigned left, unsigned right)
{
    const uint8_t record[] = {5, 0, 1, 0, 2, (uint8_t)left, (uint8_t)(left >> 8), (uint8_t)right, (uint8_t)(right >> 8)};
    add(record, sizeof record);
}

/* Atom 0 and as many implications as there can be, each from the one before to itself, so that none is deeper; a tautology line states the last. */
static void make_deep_file(void)
{
    static const uint8_t atom[] = {5, 0, 1, 0, 1, 0, 0, 0, 0};
    static const uint8_t seal_and_line[] = {0, 0, 3, 0, 8, 0, 4, 0, 1, 0, 0xFF, 0x03, 0xFF, 0xFF, 0xFF, 0xFF};
    unsigned number;
    file_length = 0;
    add(atom, sizeof atom);
    for (number = 1; number < 1023; number++)
        add_implication(number - 1, number - 1);
    add_implication(1022, 1022);
    add(seal_and_line, sizeof seal_and_line);
}

static void *try_deep_file(void *unused)
{
    make_deep_file();
    expect(lists("formulas 1024 assumptions 0 lines 1 refutations 0\n1023 derived 0\nread 9232\n"), "another listing of a deep file");
    return unused;
}

/* In a thread with as much stack as the header says. */
static void try_stack(void)
{
    pthread_attr_t attributes;
    pthread_t thread;
    pthread_attr_init(&attributes);
    expect(pthread_attr_setstacksize(&attributes, KELOMBARY_STACK_MOST + THREAD_STACK) == 0, "there is no such stack");
    expect(pthread_create(&thread, &attributes, try_deep_file, NULL) == 0, "there is no thread");
    pthread_join(thread, NULL);
}

int main(void)
{
    file_length = fread(file, 1, sizeof file, stdin);
    try_rooms();
    try_memory();
    file_length = 0;
    expect(lists("formulas 0 assumptions 0 lines 0 refutations 0\nrefused 1 25 0\n"), "another listing of an empty file");
    file_length = sizeof file;
    expect(lists("formulas 0 assumptions 0 lines 0 refutations 0\ntoo long\n"), "another listing of a file that is too long");
    try_stack();
    return 0;
}
