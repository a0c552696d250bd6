/* Integers of every width, from inputs: signed and unsigned division, shifts, comparisons and conversions. */
#include <pthread.h>
#include <stdint.h>
#include <stdio.h>

int8_t rc_input_i8(int);
int16_t rc_input_i16(int);
int32_t rc_input_i32(int);
int64_t rc_input_i64(int);

static int32_t divisor = 7;
static uint64_t mixed;

static uint64_t mix(uint64_t state)
{
    state ^= state << 13;
    state ^= state >> 7;
    return state ^ state << 17;
}

static void *divide(void *argument)
{
    int32_t *number = argument;
    *number = *number / divisor + *number % divisor;
    mixed = mix(*(uint32_t *)number);
    return NULL;
}

static int32_t clamp(int32_t value, int32_t least, int32_t greatest)
{
    return value < least ? least : value > greatest ? greatest : value;
}

int main(void)
{
    pthread_t thread;
    int8_t small = rc_input_i8(0);
    int16_t middle = rc_input_i16(1);
    int32_t number = rc_input_i32(2);
    int64_t large = rc_input_i64(3);
    uint8_t wrapped = (uint8_t)(small + 200);
    uint16_t half = (uint16_t)middle / 3u;

    pthread_create(&thread, NULL, divide, &number);
    divisor = clamp(small, 1, 9);
    pthread_join(thread, NULL);
    printf("%d %i %u %u\n", small, middle, wrapped, half);
    printf("%ld %lu %lx\n", large >> 3, (uint64_t)large / 10, mixed);
    printf("%d %d %d\n", number, ~number & 0xff, (number ^ -1) | 1);
    printf("%d%d%d\n", small < wrapped, (uint64_t)large > mixed, middle >= number);
    return (large < 0) << (small & 3);
}
