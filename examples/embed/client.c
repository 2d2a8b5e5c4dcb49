/* client: two editors in one process, each with a client, and what orders their messages. They type at once, one of them is cut off,
 * types on, and comes back. What they show is written after each step; ends with 1 where a call answers otherwise than expected. */
#include "vemiktag.h"
#include <stdio.h>
#include <stdlib.h>
#include <string.h>

#define ROOM 4096
#define MOST 64

/* An editor: its client, the name of its connection, how many messages it was given, and of the last draft of that connection the number to
 * which it refers and its own. */
struct editor {
    vemiktag_client client;
    const char *name;
    size_t given;
    unsigned long refers;
    unsigned long drafts;
    bool joined;
};

/* All messages, in their order. */
static char messages[MOST][ROOM];
static size_t sent;

/* The minimum that the last of them tells. */
static unsigned long minimum;
static struct editor ann, bob;

static void expect(bool holds, const char *what) {
    if (!holds) {
        fprintf(stderr, "not so: %s\n", what);
        exit(1);
    }
}

/* What waits to be read of the client, as a string, without the LF of its last line. */
static char *told(struct editor *editor) {
    static char text[ROOM];
    size_t waiting = 0, count = 0;
    expect(vemiktag_client_waiting(&editor->client, &waiting) == VEMIKTAG_DONE && waiting < sizeof text, "there is room");
    expect(vemiktag_client_read(&editor->client, (uint8_t *)text, sizeof text, &count) == VEMIKTAG_DONE && count == waiting, "it is read");
    text[count > 0 ? count - 1 : 0] = '\0';
    return text;
}

/* ---- the server */

/* No connection that is joined will refer to a number below that. */
static void raise_minimum(void) {
    minimum = sent + 1;
    if (ann.joined && ann.refers < minimum) {
        minimum = ann.refers;
    }
    if (bob.joined && bob.refers < minimum) {
        minimum = bob.refers;
    }
}

/* Puts a message into the log: the fields that the editor's connection tells, and those that the server adds. */
static void put(const struct editor *editor, const char *rest) {
    expect(sent < MOST, "there is room for a message");
    raise_minimum();
    int length = snprintf(messages[sent], ROOM, "{\"clientId\":\"%s\",\"minimumSequenceNumber\":%lu,\"sequenceNumber\":%zu,%s", editor->name, minimum, sent + 1, rest);
    expect(0 < length && length < ROOM, "there is room for its text");
    sent++;
}

/* A connection comes or goes. */
static void put_notice(const struct editor *editor, const char *kind) {
    char rest[ROOM];
    snprintf(rest, sizeof rest, "\"clientSequenceNumber\":-1,\"contents\":null,\"referenceSequenceNumber\":-1,\"type\":\"%s\"}", kind);
    put(editor, rest);
}

/* The number behind the last of these words, which stands behind the contents of a draft. */
static unsigned long number_behind(const char *draft, const char *word) {
    const char *last = NULL;
    for (const char *at = draft; (at = strstr(at, word)) != NULL; at++) {
        last = at;
    }
    expect(last != NULL, "a draft has the word");
    return strtoul(last + strlen(word), NULL, 10);
}

/* Gives the draft of the editor's connection its number; false where it comes late, twice or out of turn, and then nothing changed. */
static bool take(struct editor *editor, const char *draft) {
    static const char first[] = "{\"clientSequenceNumber\":";
    expect(strncmp(draft, first, sizeof first - 1) == 0, "a draft begins with its number");
    unsigned long number = strtoul(draft + sizeof first - 1, NULL, 10);
    unsigned long refers = number_behind(draft, "\"referenceSequenceNumber\":");
    if (!editor->joined || number != editor->drafts + 1 || refers < minimum || refers < editor->refers || refers > sent) {
        return false;
    }
    editor->drafts = number;
    editor->refers = refers;
    put(editor, draft + 1);
    return true;
}

/* ---- the editors */

/* It waits for its join, and the server puts that into the log. */
static void join(struct editor *editor, const char *name) {
    expect(vemiktag_client_connect(&editor->client, (const uint8_t *)name, strlen(name)) == VEMIKTAG_DONE, "it may connect");
    editor->refers = minimum;
    editor->drafts = 0;
    editor->name = name;
    editor->joined = true;
    put_notice(editor, "join");
}

/* Its connection is gone, and the server tells so. */
static void leave(struct editor *editor) {
    expect(vemiktag_client_drop(&editor->client) == VEMIKTAG_DONE, "it had a connection");
    editor->joined = false;
    put_notice(editor, "leave");
}

/* It sends what it has to send. */
static void submit(struct editor *editor) {
    uint32_t status;
    while ((status = vemiktag_client_outgoing(&editor->client)) == VEMIKTAG_DONE) {
        expect(take(editor, told(editor)), "its drafts come in turn");
    }
    expect(status == VEMIKTAG_NOTHING, "it has nothing more to send");
}

/* It is given the messages that it hasn't processed yet. */
static void deliver(struct editor *editor) {
    for (; editor->given < sent; editor->given++) {
        const char *message = messages[editor->given];
        expect(vemiktag_client_process(&editor->client, (const uint8_t *)message, strlen(message)) == VEMIKTAG_DONE, "it takes the next message");
    }
}

/* Both send what they have, hear of all, and show it. */
static void exchange(void) {
    submit(&ann);
    submit(&bob);
    deliver(&ann);
    deliver(&bob);
}

static uint32_t edit(struct editor *editor, const char *op) {
    char line[ROOM];
    int length = snprintf(line, sizeof line, "{\"address\":\"text\",\"client\":\"\",\"do\":\"edit\",\"op\":%s}", op);
    return vemiktag_client_edit(&editor->client, (const uint8_t *)line, (size_t)length);
}

static void type(struct editor *editor, const char *op) {
    expect(edit(editor, op) == VEMIKTAG_DONE, "it may be typed");
}

static void show(const char *when) {
    printf("%s\n", when);
    expect(vemiktag_client_view(&ann.client) == VEMIKTAG_DONE, "it is shown");
    printf("%s\n", told(&ann));
    expect(vemiktag_client_view(&bob.client) == VEMIKTAG_DONE, "it is shown");
    printf("%s\n", told(&bob));
}

int main(void) {
    expect(vemiktag_client_new(&ann.client) == VEMIKTAG_DONE && vemiktag_client_new(&bob.client) == VEMIKTAG_DONE, "there is memory");
    join(&ann, "ann/1");
    join(&bob, "bob/1");
    exchange();
    type(&ann, "{\"pos1\":0,\"seg\":\"The cat sat.\",\"type\":0}");
    exchange();
    show("ann has typed");
    type(&ann, "{\"pos1\":4,\"seg\":\"black \",\"type\":0}");
    type(&bob, "{\"pos1\":7,\"pos2\":11,\"type\":1}");
    type(&bob, "{\"pos1\":7,\"seg\":\" slept\",\"type\":0}");
    show("both have typed");
    exchange();
    show("each has heard of the other");
    type(&bob, "{\"pos1\":20,\"seg\":\" Quietly.\",\"type\":0}");
    expect(vemiktag_client_outgoing(&bob.client) == VEMIKTAG_DONE, "it has that to send");
    const char *late = told(&bob);
    leave(&bob);
    expect(!take(&bob, late), "a draft that comes behind its connection's leave changes nothing");
    type(&ann, "{\"pos1\":4,\"pos2\":10,\"type\":1}");
    submit(&ann);
    deliver(&ann);
    show("bob is cut off");
    join(&bob, "bob/2");
    deliver(&bob);
    exchange();
    show("bob is back");
    expect(edit(&bob, "{\"pos1\":100,\"seg\":\"!\",\"type\":0}") == VEMIKTAG_SOME_REFUSED, "there is no such place");
    printf("%s\n", told(&bob));
    expect(vemiktag_client_free(&ann.client) == VEMIKTAG_DONE && vemiktag_client_free(&bob.client) == VEMIKTAG_DONE, "they were open");
    expect(vemiktag_client_view(&ann.client) == VEMIKTAG_CLOSED, "they are closed");
    return 0;
}
