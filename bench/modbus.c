/* Exchanges over one loopback connection by libmodbus, for comparison: one register is read so many times. Two processes, since
   its client waits for each reply. */
#include <modbus.h>
#include <stdio.h>
#include <stdlib.h>
#include <sys/wait.h>
#include <unistd.h>

static int serve(modbus_t *bus, int listening)
{
    modbus_mapping_t *map = modbus_mapping_new(0, 0, 1, 0);
    uint8_t query[MODBUS_TCP_MAX_ADU_LENGTH];
    if (map == NULL || modbus_tcp_accept(bus, &listening) < 0)
        return 1;
    for (;;) {
        int bytes = modbus_receive(bus, query);
        if (bytes < 0)
            return 0;
        if (bytes > 0 && modbus_reply(bus, query, bytes, map) < 0)
            return 1;
    }
}

int main(int argc, char **argv)
{
    long count = argc > 1 ? atol(argv[1]) : 9000;
    modbus_t *server = modbus_new_tcp("127.0.0.1", 15020);
    int listening = server == NULL ? -1 : modbus_tcp_listen(server, 1);
    if (listening < 0) {
        perror("listen");
        return 1;
    }
    pid_t child = fork();
    if (child == 0)
        return serve(server, listening);
    modbus_t *client = modbus_new_tcp("127.0.0.1", 15020);
    if (client == NULL || modbus_connect(client) < 0) {
        perror("connect");
        return 1;
    }
    for (long k = 0; k < count; k++) {
        uint16_t value;
        if (modbus_read_registers(client, 0, 1, &value) != 1) {
            perror("read");
            return 1;
        }
        printf("%ld %u\n", k, value);
    }
    modbus_close(client);
    waitpid(child, NULL, 0);
    return 0;
}
