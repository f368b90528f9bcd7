/*
 * Runs a job, and shows that a damaged one is refused. From the folder of this package:
 *
 *     gcc -Wall -Iinclude examples/first.c ../target/staticlib/libfirmware.a -o target/first && target/first
 */
#include "jigsorrel.h"
#include <stdio.h>

/* One block of 5,000 mm, and two questions for the speed at its start: 1,000,001 is too fast to stop, 1,000,000 is not. */
static const uint8_t JOB[] = {
    0x01, 0x00, 0x14,                                                                   /* insert, 20 bytes */
    0x00, 0x00,                                                                         /* place 0 */
    0x00, 0x00, 0x0B, 0xB8, 0x00, 0x00, 0x0F, 0xA0, 0x00, 0x00, 0x00, 0x00,             /* x 3000, y 4000, z 0 */
    0x00, 0x64, 0x07, 0xD0, 0x02, 0x58,                                                 /* a 100, f 2000, r 600 */
    0x04, 0x00, 0x06, 0x00, 0x00, 0x00, 0x0F, 0x42, 0x41,                               /* junction 0 from 1,000,001 */
    0x04, 0x00, 0x06, 0x00, 0x00, 0x00, 0x0F, 0x42, 0x40,                               /* junction 0 from 1,000,000 */
    0x7F, 0x00, 0x01, 0xE1,                                                             /* end, and the check byte */
};

static void run(const char *name, const uint8_t *job, size_t job_len)
{
    static uint8_t text[JIGSORREL_TEXT_ROOM(sizeof JOB)];
    uint64_t verdict = jigsorrel_verdict(job, job_len);
    uint64_t length = jigsorrel_run_job(job, job_len, text, sizeof text);

    printf("%s: refusal %u, offset %u\n", name, JIGSORREL_REFUSAL(verdict), (unsigned)JIGSORREL_OFFSET(verdict));
    if (length == JIGSORREL_TOO_SHORT)
        printf("the text buffer is too short\n");
    else
        printf("%.*s", (int)length, (const char *)text);
}

int main(void)
{
    run("whole", JOB, sizeof JOB);
    run("cut short", JOB, sizeof JOB - 6);
    return 0;
}
