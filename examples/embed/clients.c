/* clients: clients that are held, where something is wanting: memory, an open client, a line that is taken. Ends with 0 where each
 * call answers as include/vemiktag.h says. Link it with --wrap=malloc,--wrap=realloc. */
#include "failing.h"
#include "vemiktag.h"
#include <string.h>

#define CALL(name, client, text) vemiktag_client_##name(client, (const uint8_t *)(text), strlen(text))

static const char join[] = "{\"clientId\":\"a/1\",\"clientSequenceNumber\":-1,\"minimumSequenceNumber\":0,\"referenceSequenceNumber\":-1,\"sequenceNumber\":1,\"type\":\"join\"}";
static const char typed[] = "{\"address\":\"text\",\"client\":\"\",\"do\":\"edit\",\"op\":{\"pos1\":0,\"seg\":\"Tea\",\"type\":0}}";
static const char astray[] = "{\"address\":\"text\",\"client\":\"\",\"do\":\"edit\",\"op\":{\"pos1\":9,\"seg\":\"!\",\"type\":0}}";
static const char other[] = "{\"client\":\"\",\"do\":\"show\"}";
static const char summary[] = "{\"cells\":[],\"cols\":[],\"conns\":[\"a/1\"],\"count\":3,\"intervals\":[],\"min\":2,\"other\":0,\"rows\":[],\"seq\":2,"
                              "\"skipped\":0,\"text\":[[{\"t\":\"Tea\"}]],\"version\":2}";
static const char draft[] = "{\"clientSequenceNumber\":1,\"contents\":{\"address\":\"text\",\"contents\":{\"pos1\":0,\"seg\":\"Tea\",\"type\":0}},"
                            "\"referenceSequenceNumber\":1,\"type\":\"op\"}\n";
static const char shown[] = "client \"a/1\" online seq 1 min 0 pending 1\ntext \"Tea\"\n";

static const char put[] = "{\"change\":\"put\",\"pos\":0,\"seg\":\"Tea\",\"props\":{}}\n";

static char text[4096];

/* Whether this is what waits, which is read. */
static bool reads(vemiktag_client *client, const char *expected) {
    size_t waiting = 0, count = 0;
    if (vemiktag_client_waiting(client, &waiting) != VEMIKTAG_DONE || vemiktag_client_read(client, (uint8_t *)text, sizeof text, &count) != VEMIKTAG_DONE) {
        return false;
    }
    return count == waiting && count == strlen(expected) && memcmp(text, expected, count) == 0;
}

/* Each call of a client that isn't open, or takes nothing more. */
static void try_closed(vemiktag_client *client) {
    expect(CALL(load, client, summary) == VEMIKTAG_CLOSED, "a closed client loads nothing");
    expect(CALL(connect, client, "a/1") == VEMIKTAG_CLOSED && vemiktag_client_drop(client) == VEMIKTAG_CLOSED, "connects to nothing");
    expect(CALL(edit, client, typed) == VEMIKTAG_CLOSED && CALL(process, client, join) == VEMIKTAG_CLOSED, "takes nothing");
    expect(vemiktag_client_outgoing(client) == VEMIKTAG_CLOSED && vemiktag_client_view(client) == VEMIKTAG_CLOSED, "has nothing to send or show");
    expect(vemiktag_client_tell(client, true) == VEMIKTAG_CLOSED && vemiktag_client_changes(client) == VEMIKTAG_CLOSED, "and tells nothing");
}

/* What is refused, and that nothing changes by it. */
static void try_refused(vemiktag_client *client) {
    expect(CALL(edit, client, astray) == VEMIKTAG_SOME_REFUSED && reads(client, "refused 6 OutOfRange length 3\n"), "there is no such place");
    expect(CALL(edit, client, "{") == VEMIKTAG_SOME_REFUSED && reads(client, "refused 1 Malformed NotJson\n"), "it is no edit");
    expect(CALL(edit, client, other) == VEMIKTAG_SOME_REFUSED && reads(client, "refused 1 Malformed UnknownWord\n"), "nor is that");
    expect(CALL(process, client, join) == VEMIKTAG_SOME_REFUSED && reads(client, "refused 9 OutOfOrder expected 2 got 1\n"), "it came before");
    expect(CALL(connect, client, "a/2") == VEMIKTAG_SOME_REFUSED && reads(client, "refused 4 AlreadyConnected\n"), "it has a connection");
    expect(CALL(connect, client, "\xff") == VEMIKTAG_SOME_REFUSED && reads(client, "refused 1 Malformed NotUtf8\n"), "it is no name");
    expect(CALL(load, client, "{}") == VEMIKTAG_SOME_REFUSED && reads(client, "refused 19 Summary Malformed Missing version\n"), "it is no summary");
    expect(vemiktag_client_view(client) == VEMIKTAG_DONE && reads(client, shown), "and nothing changed");
}

/* A client from its join to its end; the first status that isn't done. */
static uint32_t play(vemiktag_client *client) {
    uint32_t status = vemiktag_client_new(client);
    status = status == VEMIKTAG_DONE ? CALL(connect, client, "a/1") : status;
    status = status == VEMIKTAG_DONE ? CALL(process, client, join) : status;
    status = status == VEMIKTAG_DONE ? vemiktag_client_tell(client, true) : status;
    status = status == VEMIKTAG_DONE ? CALL(edit, client, typed) : status;
    status = status == VEMIKTAG_DONE ? vemiktag_client_changes(client) : status;
    status = status == VEMIKTAG_DONE ? vemiktag_client_view(client) : status;
    status = status == VEMIKTAG_DONE ? vemiktag_client_outgoing(client) : status;
    return status == VEMIKTAG_DONE ? CALL(load, client, summary) : status;
}

/* A client that is opened anew, sends and loads, is freed and asked for more. */
static void try_client(void) {
    vemiktag_client client = {0};
    size_t count = 12345;
    try_closed(&client);
    expect(vemiktag_client_waiting(&client, &count) == VEMIKTAG_CLOSED && count == 0, "a closed client has nothing to read");
    expect(vemiktag_client_new(&client) == VEMIKTAG_DONE && vemiktag_client_new(&client) == VEMIKTAG_DONE, "a client opens, and opens anew");
    expect(vemiktag_client_drop(&client) == VEMIKTAG_SOME_REFUSED && reads(&client, "refused 5 NotConnected\n"), "it has no connection");
    expect(CALL(connect, &client, "a/1") == VEMIKTAG_DONE && vemiktag_client_view(&client) == VEMIKTAG_DONE, "it waits for one");
    expect(reads(&client, "client \"a/1\" joining seq 0 min 0 pending 0\ntext \"\"\n"), "and shows so");
    expect(vemiktag_client_drop(&client) == VEMIKTAG_DONE && CALL(connect, &client, "a/1") == VEMIKTAG_DONE, "no more, and again");
    expect(CALL(process, &client, join) == VEMIKTAG_DONE && CALL(edit, &client, typed) == VEMIKTAG_DONE, "it is online, and types");
    try_refused(&client);
    expect(vemiktag_client_outgoing(&client) == VEMIKTAG_DONE && reads(&client, draft), "it has that to send");
    expect(vemiktag_client_outgoing(&client) == VEMIKTAG_NOTHING && reads(&client, ""), "and nothing more");
    expect(CALL(load, &client, summary) == VEMIKTAG_DONE && vemiktag_client_view(&client) == VEMIKTAG_DONE, "it starts from a summary");
    expect(reads(&client, "client \"\" offline seq 2 min 2 pending 0\ntext \"Tea\"\n"), "and shows it");
    expect(vemiktag_client_free(&client) == VEMIKTAG_DONE && vemiktag_client_free(&client) == VEMIKTAG_CLOSED, "it is freed once");
    try_closed(&client);
}

/* A client that tells what changes, or doesn't; with each allocation of what is told failing in its turn, it is told after all. */
static void try_told(void) {
    vemiktag_client client = {0};
    expect(vemiktag_client_new(&client) == VEMIKTAG_DONE && vemiktag_client_changes(&client) == VEMIKTAG_NOTHING, "nobody is told");
    expect(vemiktag_client_tell(&client, true) == VEMIKTAG_DONE && vemiktag_client_changes(&client) == VEMIKTAG_DONE, "one is, from now on");
    expect(reads(&client, "") && CALL(edit, &client, typed) == VEMIKTAG_DONE, "of nothing, and of what is typed");
    uint32_t status = VEMIKTAG_OUT_OF_MEMORY;
    for (long turn = 0; status == VEMIKTAG_OUT_OF_MEMORY; turn++) {
        left = turn;
        status = vemiktag_client_changes(&client);
        left = -1;
        expect(status == VEMIKTAG_DONE || reads(&client, ""), "without memory nothing is told");
    }
    expect(status == VEMIKTAG_DONE && reads(&client, put), "but it is with it");
    expect(vemiktag_client_changes(&client) == VEMIKTAG_DONE && reads(&client, ""), "once");
    expect(CALL(load, &client, summary) == VEMIKTAG_DONE && vemiktag_client_changes(&client) == VEMIKTAG_DONE, "it starts from a summary");
    expect(reads(&client, put), "and tells what leads there from nothing");
    expect(vemiktag_client_tell(&client, true) == VEMIKTAG_DONE && vemiktag_client_changes(&client) == VEMIKTAG_DONE, "so it does");
    expect(reads(&client, put), "to who listens anew");
    expect(vemiktag_client_tell(&client, false) == VEMIKTAG_DONE && vemiktag_client_changes(&client) == VEMIKTAG_NOTHING, "nobody is told any more");
    expect(vemiktag_client_free(&client) == VEMIKTAG_DONE, "it is freed");
}

/* A call that is refused, with each of its allocations failing in its turn: the client ends, or it goes on and the line alone is lost. */
static void try_untold(void) {
    long turn = 0, untold = 0;
    for (bool failed = true; failed; turn++) {
        vemiktag_client client = {0};
        expect(vemiktag_client_new(&client) == VEMIKTAG_DONE && CALL(connect, &client, "a/1") == VEMIKTAG_DONE, "a client waits to be online");
        expect(CALL(process, &client, join) == VEMIKTAG_DONE && CALL(edit, &client, typed) == VEMIKTAG_DONE, "it is, and types");
        left = turn;
        uint32_t status = CALL(edit, &client, astray);
        failed = left < 0;
        left = -1;
        expect(status == VEMIKTAG_SOME_REFUSED || (failed && (status == VEMIKTAG_UNTOLD || status == VEMIKTAG_OUT_OF_MEMORY)), "it is refused, or has no memory");
        if (status == VEMIKTAG_UNTOLD) {
            expect(reads(&client, "") && vemiktag_client_view(&client) == VEMIKTAG_DONE && reads(&client, shown), "nothing but the line is lost");
            untold++;
        }
        vemiktag_client_free(&client);
    }
    expect(untold > 0, "a line was lost");
}

int main(void) {
    try_client();
    try_told();
    try_untold();
    long turn = 0;
    for (bool failed = true; failed; turn++) {
        vemiktag_client client = {0};
        left = turn;
        uint32_t status = play(&client);
        failed = left < 0;
        left = -1;
        expect(status == VEMIKTAG_DONE || (failed && status == VEMIKTAG_OUT_OF_MEMORY), "want of memory is told, and has its cause");
        vemiktag_client_free(&client);
    }
    printf("%ld allocations of a client\n", turn - 1);
    return 0;
}
