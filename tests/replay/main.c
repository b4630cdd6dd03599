/* Reads commands from standard input, one to a line of any length, and prints the answers: compare/PROTOCOL.md. */
#define _POSIX_C_SOURCE 200809L
#include <stdio.h>
#include <stdlib.h>

#include "replay.h"

#define COMMANDS(X) \
    X(header) X(walk) X(parse) X(parseids) X(find) X(findids) X(findby) X(type) X(id) X(itemtype) X(itemid) X(kind) X(name) X(prim) X(word) \
    X(opttype) X(optid) X(string) X(padding) X(unsigned) X(signed) X(next) X(create) X(update) X(findin) X(maxindex) X(createby) X(updateby) \
    X(findinby) X(maxindexby) X(wunsigned) X(wsigned) X(wtype) X(welement) X(save) X(load) X(savewide) X(loadwide) X(writeheader) X(write) \
    X(rewrite) X(rewriteid) X(secwalk) X(secparse) X(seccount) X(secfind) X(seccreate) X(sectpi) X(declare) X(view) X(marker) X(element) X(idelement) \
    X(idat) X(membername) X(count) X(cross) X(fit) X(drop) X(report) X(reportfrom)

static const struct {
    const char *name;
    Command *carry_out;
} commands[] = {
#define ROW(name) {#name, on_##name},
    COMMANDS(ROW)
#undef ROW
};

static void command(Words *w)
{
    if (!words_left(w))
        return;
    Word name = next_word(w);
    for (size_t i = 0; i < sizeof commands / sizeof commands[0]; i++) {
        if (word_is(name, commands[i].name)) {
            commands[i].carry_out(w);
            return;
        }
    }
    put("? ");
    fwrite(name.letters, 1, name.length, stdout);
    put("\n");
}

int main(void)
{
    char *line = NULL;
    size_t room = 0;
    while (getline(&line, &room, stdin) >= 0) {
        Words w = {line};
        command(&w);
        give_back();
    }
    free(line);
    return fflush(stdout) == 0 && !ferror(stdout) && !ferror(stdin) ? 0 : 1;
}
