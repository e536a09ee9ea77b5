// Prints the transcript of the model along a stimulus, as `macpitts trace` does.
#include "Vgcd.h"
#include "verilated.h"
#include <cstdio>
#include <cstdlib>
#include <cstring>

double sc_time_stamp() { return 0; }

static void give(Vgcd& model, char* words) {
    model.reset = model.a = model.b = 0;
    for (char* word = strtok(words, " \n"); word; word = strtok(nullptr, " \n")) {
        char* equals = strchr(word, '=');
        if (!equals) continue;
        int value = atoi(equals + 1);
        if (!strncmp(word, "reset=", 6)) model.reset = value;
        else if (!strncmp(word, "a=", 2)) model.a = value;
        else if (!strncmp(word, "b=", 2)) model.b = value;
    }
}

int main(int, char** words) {
    Vgcd model;
    char line[4096];
    FILE* stimulus = fopen(words[1], "r");
    for (unsigned clock = 0; fgets(line, sizeof line, stimulus);) {
        if (strncmp(line, "clock", 5)) continue;
        give(model, line);
        model.clk = 0;
        model.eval();
        printf("%u q=%d done=%d\n", clock++, model.q, model.done);
        model.clk = 1;
        model.eval();
    }
}
