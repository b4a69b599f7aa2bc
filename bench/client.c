/* A client of Debian's library libnats: what `bench/live` measures jetstream_pipe against.
 *
 *   client PORT publish SUBJECT < LINES      publishes each line, at most 256 of them at a time
 *   client PORT consume STREAM COUNT         writes sequence, subject and payload of COUNT messages, by an ordered push consumer
 */
#include <nats/nats.h>
#include <stdio.h>
#include <stdlib.h>
#include <string.h>

static void must(natsStatus status, const char *what)
{
    if (status != NATS_OK) {
        fprintf(stderr, "%s: %s\n", what, natsStatus_GetText(status));
        exit(1);
    }
}

static void publish(jsCtx *js, const char *subject)
{
    char *line = NULL;
    size_t room = 0;
    ssize_t length;
    while ((length = getline(&line, &room, stdin)) > 0) {
        if (line[length - 1] == '\n')
            length--;
        must(js_PublishAsync(js, subject, line, (int)length, NULL), "publish");
    }
    free(line);
    must(js_PublishAsyncComplete(js, NULL), "complete");
}

static void consume(jsCtx *js, const char *stream, long count)
{
    jsSubOptions words;
    natsSubscription *subscription = NULL;
    jsSubOptions_Init(&words);
    words.Stream = stream;
    words.Ordered = true;
    must(js_SubscribeSync(&subscription, js, ">", NULL, &words, NULL), "subscribe");
    /* The library drops what is above these limits, as it does by default above 65,536 messages. */
    natsSubscription_SetPendingLimits(subscription, -1, -1);
    for (long taken = 0; taken < count; taken++) {
        natsMsg *message = NULL;
        jsMsgMetaData *place = NULL;
        must(natsSubscription_NextMsg(&message, subscription, 10000), "next");
        must(natsMsg_GetMetaData(&place, message), "place");
        printf("%llu %s ", (unsigned long long)place->Sequence.Stream, natsMsg_GetSubject(message));
        fwrite(natsMsg_GetData(message), 1, (size_t)natsMsg_GetDataLength(message), stdout);
        putchar('\n');
        jsMsgMetaData_Destroy(place);
        natsMsg_Destroy(message);
    }
    natsSubscription_Destroy(subscription);
}

int main(int count, char **words)
{
    char url[64];
    jsOptions options;
    natsConnection *connection = NULL;
    jsCtx *js = NULL;
    if (count < 4)
        return 2;
    snprintf(url, sizeof url, "nats://127.0.0.1:%s", words[1]);
    must(natsConnection_ConnectTo(&connection, url), "connect");
    jsOptions_Init(&options);
    options.PublishAsync.MaxPending = 256;
    must(natsConnection_JetStream(&js, connection, &options), "JetStream");
    if (strcmp(words[2], "publish") == 0)
        publish(js, words[3]);
    else
        consume(js, words[3], count > 4 ? atol(words[4]) : 1);
    jsCtx_Destroy(js);
    natsConnection_Destroy(connection);
    nats_Close();
    return 0;
}
