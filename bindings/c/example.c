/* Takes a new table through its calls, and prints each answer: `example samples/new.img`. */
#include <stdio.h>

#include "duottarok.h"

static void say(const char *call, uint64_t answer)
{
    printf("%s: %#x %u\n", call, dpe_outer(answer), dpe_inner(answer));
}

int main(int argc, char **argv)
{
    uint8_t image[DPE_IMAGE_SIZE + 1];
    FILE *file = argc == 2 ? fopen(argv[1], "rb") : NULL;
    if (file == NULL) {
        fprintf(stderr, "usage: example IMAGE\n");
        return 2;
    }
    size_t length = fread(image, 1, sizeof image, file);
    fclose(file);

    const uint8_t candidates[2 * DPE_HANDLE_SIZE] = {[DPE_HANDLE_SIZE] = 1};
    uint8_t handle[DPE_HANDLE_SIZE], simulation[DPE_HANDLE_SIZE];
    uint64_t slot = 0, active = 0;
    say("initialize default in 7", dpe_initialize_context(image, length, DPE_INIT_DEFAULT, 7, candidates, 0, handle));
    say("initialize default again", dpe_initialize_context(image, length, DPE_INIT_DEFAULT, 7, candidates, 0, handle));
    say("initialize simulation in 8",
        dpe_initialize_context(image, length, DPE_INIT_SIMULATION, 8, candidates, sizeof candidates, simulation));
    say("lookup", dpe_lookup(image, length, simulation, 8, &slot));
    say("validate", dpe_validate(image, length));
    say("destroy", dpe_destroy_context(image, length, handle, 7));
    say("count", dpe_count(image, length, 1, &active));
    printf("slot %u, %u active\n", (unsigned)slot, (unsigned)active);
    return 0;
}
