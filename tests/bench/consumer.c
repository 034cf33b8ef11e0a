/* The least that a consumer of a RabbitMQ queue does in C, by librabbitmq: it takes messages, and acknowledges them by the
   thousand. It reads no body, and saves nothing.

     consumer HOST PORT QUEUE COUNT PREFETCH EVERY

   Takes COUNT messages, of which PREFETCH may be unacknowledged, and acknowledges EVERY at a time. The status is 1 if the
   server doesn't do its part. tests/bench/consume_rates.py builds and runs it. */
#include <amqp.h>
#include <amqp_tcp_socket.h>
#include <stdio.h>
#include <stdlib.h>
#include <string.h>

static void need(int is_so, const char *what) {
    if (is_so) return;
    fprintf(stderr, "consumer: %s failed\n", what);
    exit(1);
}

static void need_answer(amqp_connection_state_t connection, const char *what) {
    need(amqp_get_rpc_reply(connection).reply_type == AMQP_RESPONSE_NORMAL, what);
}

int main(int count, char **arguments) {
    if (count != 7) return 2;
    long left = atol(arguments[4]), every = atol(arguments[6]);
    amqp_connection_state_t connection = amqp_new_connection();
    amqp_socket_t *socket = amqp_tcp_socket_new(connection);
    need(socket && amqp_socket_open(socket, arguments[1], atoi(arguments[2])) == 0, "the connection");
    amqp_rpc_reply_t in = amqp_login(connection, "/", 1, 131072, 30, AMQP_SASL_METHOD_PLAIN, "guest", "guest");
    need(in.reply_type == AMQP_RESPONSE_NORMAL, "the login");
    amqp_channel_open(connection, 1);
    need_answer(connection, "the channel");
    amqp_basic_qos(connection, 1, 0, (uint16_t)atoi(arguments[5]), 0);
    amqp_basic_consume(connection, 1, amqp_cstring_bytes(arguments[3]), amqp_empty_bytes, 0, 0, 0, amqp_empty_table);
    need_answer(connection, "basic.consume");
    for (long taken = 1; left > 0; taken++, left--) {
        amqp_envelope_t envelope;
        amqp_maybe_release_buffers(connection);
        need(amqp_consume_message(connection, &envelope, NULL, 0).reply_type == AMQP_RESPONSE_NORMAL, "a delivery");
        if (taken % every == 0 || left == 1) need(amqp_basic_ack(connection, 1, envelope.delivery_tag, 1) == 0, "an acknowledgement");
        amqp_destroy_envelope(&envelope);
    }
    amqp_channel_close(connection, 1, AMQP_REPLY_SUCCESS);
    amqp_connection_close(connection, AMQP_REPLY_SUCCESS);
    amqp_destroy_connection(connection);
    return 0;
}
