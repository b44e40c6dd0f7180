/* A main loop for the crossing: each line of standard input is an instant, as in a trace, and gives a line of lamps. In a box by the
   road read_inputs would read wires, and show_outputs would set lamps. */
#include <stdio.h>
#include <string.h>
#include "crossing.c"

/* in the order in which crossing.c names them */
static const char *const inputs[] = {"button", "tick", "door", "night"};
static const char *const outputs[] = {"cars", "walk", "wait", "flash"};

static int read_inputs(unsigned int *in) {
    char line[256];
    if (fgets(line, sizeof line, stdin) == NULL) {
        return 0;
    }
    for (int k = 0; k < 4; k++) {
        in[k] = strstr(line, inputs[k]) != NULL;
    }
    return 1;
}

static void show_outputs(const unsigned int *out) {
    const char *space = "";
    for (int k = 0; k < 4; k++) {
        if (out[k]) {
            printf("%s%s", space, outputs[k]);
            space = " ";
        }
    }
    puts(*space ? "" : "-");
}

int main(void) {
    static struct argos memory;
    unsigned int in[4], out[4];
    argos_init(&memory);
    while (read_inputs(in)) {
        argos_step(&memory, in, out);
        show_outputs(out);
    }
    return 0;
}
